//! Beacons of either kind, read where they stand in the caller's bytes: for forwarding and for following.

use crate::frames::bodies::body_of;
use crate::frames::kinds::{BEACON, BEACON_SIZE, EVERY_UNIT, MOST_BEACON_HOPS, MOST_SLOTS, SHORT_BEACON};
use crate::shared::numbers::{is_unit, long, word};
use crate::shared::refusal::Refusal;

/// Where the fields stand that both kinds of beacons have.
pub struct Layout {
    code: u8,
    length: usize,
    pub source: usize,
    network: usize,
    total_slots: usize,
    slot_ms: usize,
    pub hop: usize,
    pub delay: usize,
    max_hops: usize,
    sequence: usize,
    /// Whether slot ms and delay have two bytes; else they have four.
    pub is_short: bool,
}

static LONG: Layout = Layout {
    code: BEACON,
    length: 34,
    source: 3,
    network: 6,
    total_slots: 14,
    slot_ms: 15,
    hop: 21,
    delay: 26,
    max_hops: 30,
    sequence: 31,
    is_short: false,
};

static SHORT: Layout = Layout {
    code: SHORT_BEACON,
    length: 19,
    source: 1,
    network: 3,
    total_slots: 5,
    slot_ms: 6,
    hop: 8,
    delay: 13,
    max_hops: 15,
    sequence: 16,
    is_short: true,
};

/// Where the fields stand that only the long kind has.
const DESTINATION: usize = 1;
const SIZE: usize = 5;
const SUPERFRAME_MS: usize = 12;
const ORIGINAL_SOURCE: usize = 19;

impl Layout {
    fn body<'a>(&self, frame: &'a [u8]) -> Result<&'a [u8], Refusal> {
        body_of(frame, self.code, self.length, |_| 0)
    }

    #[inline(always)]
    fn ms(&self, body: &[u8], place: usize) -> u32 {
        match self.is_short {
            true => word(body, place).into(),
            false => long(body, place),
        }
    }
}

/// What forwarding and following need of a beacon within every rule.
pub struct Beacon {
    pub layout: &'static Layout,
    pub source: u16,
    pub network: u16,
    /// A short beacon does not say it.
    pub original_source: Option<u16>,
    pub sequence: u16,
    total_slots: u8,
    slot_ms: u32,
    pub hop: u8,
    pub delay: u32,
    pub max_hops: u8,
}

impl Beacon {
    /// Reads a beacon of either kind; the fields that only its own kind has are looked at here alone.
    #[inline(always)]
    pub fn read(frame: &[u8]) -> Result<Beacon, Refusal> {
        let (beacon, its_own_are_in_rule) = match frame.first() {
            Some(&SHORT_BEACON) => (Beacon::of(&SHORT, SHORT.body(frame)?, None), true),
            _ => {
                let body = LONG.body(frame)?;
                let original_source = word(body, ORIGINAL_SOURCE);
                let beacon = Beacon::of(&LONG, body, Some(original_source));
                let superframe_is_right = u64::from(word(body, SUPERFRAME_MS)) == beacon.superframe_ms();
                (beacon, constants_are_right(body) && is_unit(original_source) && superframe_is_right)
            }
        };
        match its_own_are_in_rule && beacon.is_in_rule() {
            true => Ok(beacon),
            false => Err(Refusal::Field),
        }
    }

    #[inline(always)]
    fn of(layout: &'static Layout, body: &[u8], original_source: Option<u16>) -> Beacon {
        Beacon {
            layout,
            source: word(body, layout.source),
            network: word(body, layout.network),
            original_source,
            sequence: word(body, layout.sequence),
            total_slots: body[layout.total_slots],
            slot_ms: layout.ms(body, layout.slot_ms),
            hop: body[layout.hop],
            delay: layout.ms(body, layout.delay),
            max_hops: body[layout.max_hops],
        }
    }

    /// The rules of what both kinds have.
    fn is_in_rule(&self) -> bool {
        is_unit(self.source)
            && self.network != 0
            && (1..=MOST_SLOTS).contains(&u32::from(self.total_slots))
            && self.slot_ms >= 1
            && (1..=MOST_BEACON_HOPS).contains(&u32::from(self.max_hops))
            && self.hop <= self.max_hops
    }

    /// The product of any slots and any ms fits into 64 bits: it is not cut before it is compared.
    fn superframe_ms(&self) -> u64 {
        u64::from(self.total_slots) * u64::from(self.slot_ms)
    }
}

/// What is the same in every beacon of the long kind.
fn constants_are_right(body: &[u8]) -> bool {
    u32::from(word(body, DESTINATION)) == EVERY_UNIT && u32::from(body[SIZE]) == BEACON_SIZE
}
