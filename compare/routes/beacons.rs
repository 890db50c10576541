//! What the independent table does with beacons of either kind: it forwards those that are this unit's to forward.

use crate::frames::beacons::{Beacon, Layout};
use crate::frames::bodies::seal;
use crate::routes::table::{Pair, Table};
use crate::shared::moments::{accept, Moment};
use crate::shared::numbers::is_unit;
use crate::shared::refusal::Refusal;

impl Table {
    /// Writes this unit's copy of a beacon, `given` ms later than it was heard, and answers its length. The manager is
    /// the original source of a short beacon; another one names its own.
    #[inline(never)]
    pub fn forward(
        &mut self,
        network: u16,
        manager: u16,
        frame: &[u8],
        given: u32,
        time: Moment,
        out: &mut [u8],
    ) -> Result<usize, Refusal> {
        let used = self.used_rows()?;
        let beacon = Beacon::read(frame)?;
        if network == 0 || !is_unit(manager) {
            return Err(Refusal::Field);
        }
        if beacon.source == self.own {
            return Err(Refusal::Own);
        }
        if beacon.network != network {
            return Err(Refusal::Network);
        }
        accept(self.time, time)?;
        let pair = Pair { origin: beacon.original_source.unwrap_or(manager), sequence: beacon.sequence };
        let own_hop = self.route(used, pair.origin, time)?.hops;
        if own_hop != beacon.hop + 1 || beacon.hop >= beacon.max_hops || self.pair == Some(pair) {
            return Err(Refusal::NotOurs);
        }
        let delay = beacon.delayed(given).ok_or(Refusal::Field)?;
        let out = out.get_mut(..frame.len()).ok_or(Refusal::Room)?;
        out.copy_from_slice(frame);
        beacon.layout.change(out, self.own, own_hop, delay);
        seal(out);
        self.begin_change(used, time);
        self.pair = Some(pair);
        Ok(frame.len())
    }
}

impl Beacon {
    /// The delay that is so much longer, if this kind of beacon can tell of it.
    fn delayed(&self, given: u32) -> Option<u32> {
        self.delay.checked_add(given).filter(|sum| *sum <= self.layout.longest_delay())
    }
}

impl Layout {
    fn longest_delay(&self) -> u32 {
        match self.is_short {
            true => u16::MAX.into(),
            false => u32::MAX,
        }
    }

    /// Makes a beacon this unit's copy, but for the checksum. The kind has room for the delay.
    fn change(&self, out: &mut [u8], own: u16, hop: u8, delay: u32) {
        out[self.source..self.source + 2].copy_from_slice(&own.to_le_bytes());
        out[self.hop] = hop;
        match self.is_short {
            true => out[self.delay..self.delay + 2].copy_from_slice(&(delay as u16).to_le_bytes()),
            false => out[self.delay..self.delay + 4].copy_from_slice(&delay.to_le_bytes()),
        }
    }
}
