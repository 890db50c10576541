//! What the independent table does with data: it hands back what is for this unit, and relays the rest.

use crate::frames::bodies::{body_of, seal};
use crate::frames::kinds::DATA;
use crate::routes::table::Table;
use crate::shared::moments::{accept, Moment};
use crate::shared::numbers::{is_unit, word};
use crate::shared::refusal::Refusal;
use std::ops::Range;

/// Where the fields of a data frame stand, and the payload after them.
const SOURCE: usize = 1;
pub(crate) const DESTINATION: usize = 3;
pub(crate) const TTL: usize = 5;
const PAYLOAD_LENGTH: usize = 8;
pub(crate) const PAYLOAD: usize = 9;
/// A data frame with no payload: the fields and the checksum.
const SHORTEST_DATA: usize = PAYLOAD + 1;

/// What becomes of a data frame.
#[derive(Clone, Debug, PartialEq, Eq)]
pub enum Relayed {
    /// It is for this unit: its payload is this part of the frame.
    ForUs(Range<usize>),
    /// It goes on: so many bytes were written for this unit, on a route with so many ms left.
    Onward { next_hop: u16, length: usize, left: u32 },
}

impl Relayed {
    /// The next hop, the place and length of what is handed on, and the time left. Next hop 0 says that the frame is
    /// for this unit: it takes no route, and 0 is left.
    pub fn numbers(self) -> (u16, u32, u32, u32) {
        match self {
            Relayed::ForUs(payload) => (0, payload.start as u32, payload.len() as u32, 0),
            Relayed::Onward { next_hop, length, left } => (next_hop, 0, length as u32, left),
        }
    }
}

impl Table {
    /// Hands a data frame for this unit back, and writes any other for its next hop, if the route has at least
    /// `least_left` ms left.
    #[inline(never)]
    pub fn relay(&self, frame: &[u8], time: Moment, least_left: u32, out: &mut [u8]) -> Result<Relayed, Refusal> {
        let used = self.used_rows()?;
        let data = Data::read(frame)?;
        if data.source == self.own {
            return Err(Refusal::Own);
        }
        accept(self.time, time)?;
        if data.destination == self.own {
            return Ok(Relayed::ForUs(PAYLOAD..frame.len() - 1));
        }
        if data.ttl <= 1 {
            return Err(Refusal::Ttl);
        }
        let route = self.route(used, data.destination, time)?;
        if route.left < least_left {
            return Err(Refusal::NoRoute);
        }
        let out = out.get_mut(..frame.len()).ok_or(Refusal::Room)?;
        out.copy_from_slice(frame);
        out[TTL] = data.ttl - 1;
        seal(out);
        Ok(Relayed::Onward { next_hop: route.next_hop, length: frame.len(), left: route.left })
    }
}

/// What relaying needs of a data frame within every rule.
pub(crate) struct Data {
    pub source: u16,
    pub destination: u16,
    pub ttl: u8,
}

impl Data {
    #[inline(always)]
    pub fn read(frame: &[u8]) -> Result<Data, Refusal> {
        let body = body_of(frame, DATA, SHORTEST_DATA, |frame| usize::from(frame[PAYLOAD_LENGTH]))?;
        let data = Data { source: word(body, SOURCE), destination: word(body, DESTINATION), ttl: body[TTL] };
        match is_unit(data.source) && is_unit(data.destination) {
            true => Ok(data),
            false => Err(Refusal::Field),
        }
    }
}
