//! The independent site plan, from the paper's section on it and request 101 of document 02 alone: the rules of its
//! numbers, where each kind of slot lies, and what a unit does in every slot.

use crate::frames::kinds::{BEACON, SHORT_BEACON};
use crate::shared::numbers::{is_unit, word};
use crate::shared::refusal::Refusal;

pub const MOST_HOPS: u8 = 10;
pub const LEAST_ROWS: u8 = 2;
/// No plan has more: with 2 beacon slots, 22 data slots and 5 discovery slots they are the 50 that may be active.
pub const MOST_ROWS: usize = 21;
pub const MOST_ACTIVE: usize = 50;
pub const MOST_SLOTS: usize = 100;
/// A beacon that is not short tells of no longer one.
pub const LONGEST_SUPERFRAME_MS: usize = 65_535;

/// What a unit does in a slot.
pub const DATA_TX: u8 = 0;
pub const DATA_RX: u8 = 1;
pub const BEACON_TX: u8 = 2;
pub const BEACON_RX: u8 = 3;
pub const CONTROL_TX: u8 = 4;
pub const CONTROL_RX: u8 = 5;
pub const DISCOVERY_TX: u8 = 6;
pub const DISCOVERY_RX: u8 = 7;
pub const SLEEP: u8 = 8;

/// The paper's letters for what a unit does.
pub fn letters(kinds: &[u8]) -> String {
    kinds.iter().map(|kind| char::from(b"TRBbCcDd."[usize::from(*kind)])).collect()
}

/// The numbers of a plan, within rule or not.
#[derive(Clone, Copy, Debug, PartialEq, Eq)]
pub struct Plan {
    pub network: u16,
    pub manager: u16,
    pub max_hops: u8,
    pub rows: u8,
    pub data_slots: u8,
    pub slot_ms: u16,
    /// The type of the beacons that its manager sends.
    pub beacon: u8,
}

/// The numbers that a plan is asked for with, as wide as a caller's mistake.
#[derive(Clone, Copy, Debug)]
pub struct Wanted {
    pub network: u16,
    pub manager: u16,
    pub max_hops: u32,
    pub rows: u32,
    pub data_slots: u32,
    pub slot_ms: u32,
    pub beacon: u32,
}

impl Wanted {
    /// The plan, if it is within rule. No rule leaves room for a number that a plan's bytes do not.
    pub fn plan(self) -> Result<Plan, Refusal> {
        let Wanted { network, manager, .. } = self;
        let byte = |number: u32| u8::try_from(number).map_err(|_| Refusal::OutOfRule);
        let (max_hops, rows, data_slots) = (byte(self.max_hops)?, byte(self.rows)?, byte(self.data_slots)?);
        let slot_ms = u16::try_from(self.slot_ms).map_err(|_| Refusal::OutOfRule)?;
        let beacon = byte(self.beacon)?;
        Plan { network, manager, max_hops, rows, data_slots, slot_ms, beacon }.checked()
    }
}

impl Plan {
    /// What this plan is asked for with.
    pub fn wanted(&self) -> Wanted {
        Wanted {
            network: self.network,
            manager: self.manager,
            max_hops: self.max_hops.into(),
            rows: self.rows.into(),
            data_slots: self.data_slots.into(),
            slot_ms: self.slot_ms.into(),
            beacon: self.beacon.into(),
        }
    }

    /// The plan itself, if it is within rule.
    pub fn checked(self) -> Result<Plan, Refusal> {
        let in_rule = self.network != 0
            && is_unit(self.manager)
            && (1..=MOST_HOPS).contains(&self.max_hops)
            && self.rows >= LEAST_ROWS
            && self.data_slots >= self.rows
            && self.active() <= MOST_ACTIVE
            && self.slot_ms >= 1
            && self.beacons_tell_of_it();
        match in_rule {
            true => Ok(self),
            false => Err(Refusal::OutOfRule),
        }
    }

    /// Whether there are such beacons, and they have room for how long all slots are together. A short one says only how
    /// long each is.
    fn beacons_tell_of_it(&self) -> bool {
        match self.beacon {
            BEACON => self.superframe_ms() <= LONGEST_SUPERFRAME_MS,
            SHORT_BEACON => true,
            _ => false,
        }
    }

    /// A third of the rows, rounded up, but from 2 to 5.
    pub fn discovery_slots(&self) -> usize {
        ((usize::from(self.rows) + 2) / 3).clamp(2, 5)
    }

    pub fn active(&self) -> usize {
        self.data_at(usize::from(self.data_slots)) + self.discovery_slots()
    }

    /// Ten thirds of the active ones, rounded up, but at most 100.
    pub fn slots(&self) -> usize {
        ((10 * self.active() + 2) / 3).min(MOST_SLOTS)
    }

    /// How long all slots are together.
    pub fn superframe_ms(&self) -> usize {
        self.slots() * usize::from(self.slot_ms)
    }

    /// What a plan tells of itself: its slots in use, those of a superframe and their ms, and the first slots of
    /// control, data, discovery and sleep.
    pub fn numbers(&self) -> [u32; Plan::NUMBERS] {
        let control = usize::from(self.max_hops) + 1;
        let data = control + usize::from(self.rows);
        let discovery = data + usize::from(self.data_slots);
        let sleep = discovery + self.discovery_slots();
        let counts = [self.active(), self.slots(), self.superframe_ms(), control, data, discovery, sleep];
        counts.map(|number| number as u32)
    }

    /// The slot in which the member in this row sends control.
    pub fn control_at(&self, row: usize) -> usize {
        usize::from(self.max_hops) + 1 + row
    }

    /// The slot that a data slot is.
    pub fn data_at(&self, data_slot: usize) -> usize {
        self.control_at(usize::from(self.rows)) + data_slot
    }

    /// Writes what the member in this row does, with these data slots and at this hop, in each slot: as many bytes as
    /// there are slots.
    pub fn write_schedule(&self, row: usize, held: u64, hop: usize, out: &mut [u8]) {
        let (beacons, rest) = out.split_at_mut(self.control_at(0));
        let (control, rest) = rest.split_at_mut(usize::from(self.rows));
        let (data, rest) = rest.split_at_mut(usize::from(self.data_slots));
        let (discovery, sleep) = rest.split_at_mut(self.discovery_slots());
        beacons.fill(SLEEP);
        beacons[hop] = BEACON_TX;
        if hop > 0 {
            beacons[0] = BEACON_RX;
            beacons[hop - 1] = BEACON_RX;
        }
        control.fill(CONTROL_RX);
        control[row] = CONTROL_TX;
        for (data_slot, kind) in data.iter_mut().enumerate() {
            *kind = if held >> data_slot & 1 == 1 { DATA_TX } else { DATA_RX };
        }
        // The manager is the member in row 0.
        discovery.fill(if row == 0 { DISCOVERY_TX } else { DISCOVERY_RX });
        sleep.fill(SLEEP);
    }
}

/// The bytes that a plan is at the boundary.
impl Plan {
    pub const LENGTH: usize = 10;
    pub const NUMBERS: usize = 7;

    /// The plan of these bytes, within rule or not; but there is none for another length.
    pub fn from_bytes(bytes: &[u8]) -> Result<Plan, Refusal> {
        if bytes.len() != Plan::LENGTH {
            return Err(Refusal::OutOfRule);
        }
        let (max_hops, rows, data_slots) = (bytes[4], bytes[5], bytes[6]);
        let (network, manager, slot_ms) = (word(bytes, 0), word(bytes, 2), word(bytes, 7));
        Ok(Plan { network, manager, max_hops, rows, data_slots, slot_ms, beacon: bytes[9] })
    }

    pub fn to_bytes(self, bytes: &mut [u8]) {
        bytes[0..2].copy_from_slice(&self.network.to_le_bytes());
        bytes[2..4].copy_from_slice(&self.manager.to_le_bytes());
        bytes[4..7].copy_from_slice(&[self.max_hops, self.rows, self.data_slots]);
        bytes[7..9].copy_from_slice(&self.slot_ms.to_le_bytes());
        bytes[9] = self.beacon;
    }
}
