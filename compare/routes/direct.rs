//! Relaying on the caller's bytes, which the library's relay is measured against: the table is judged and searched where
//! it lies, the frame is read where it lies, and the checksum of the copy is calculated from all of its bytes. It answers
//! as the independent table does, and is held to that wherever the table relays.

use crate::frames::bodies::seal;
use crate::routes::relays::{self, Data, Relayed, PAYLOAD, TTL};
use crate::routes::table::{Table, LEAST_QUALITY, MOST_HOPS, USABLE_AGE};
use crate::shared::moments::{accept, Moment};
use crate::shared::numbers::{is_unit, long, word};
use crate::shared::refusal::Refusal;

/// Where the numbers of a table's head stand.
const OWN: usize = 0;
const LAST_TIME: usize = 2;
const HAS_PAIR: usize = 6;
const PAIR_ORIGIN: usize = 7;
const PAIR_SEQUENCE: usize = 9;

/// Where the numbers of a row stand.
const DESTINATION: usize = 0;
const NEXT_HOP: usize = 2;
const HOPS: usize = 4;
const QUALITY: usize = 5;
const TIME: usize = 6;
const WITHDRAWN: usize = 10;

/// Hands a data frame for this unit back, and writes any other for its next hop, if the route has at least `least_left`
/// ms left.
#[inline(never)]
pub fn relay(table: &[u8], frame: &[u8], time: Moment, least_left: u32, out: &mut [u8]) -> Result<Relayed, Refusal> {
    let table = View::of(table)?;
    let row = table.judged_row_to(destination_in(frame))?;
    table.relay(row, frame, time, least_left, out)
}

/// The same by a table that is taken to be within rule: the difference is what judging costs.
#[inline(never)]
pub fn relay_trusting(
    table: &[u8],
    frame: &[u8],
    time: Moment,
    least_left: u32,
    out: &mut [u8],
) -> Result<Relayed, Refusal> {
    let table = View::of(table)?;
    let row = table.row_to(destination_in(frame));
    table.relay(row, frame, time, least_left, out)
}

/// Whom a frame is for, before it is judged, so that going up the rows once is enough. One that is too short to say it
/// is refused before its row is looked at.
#[inline(always)]
fn destination_in(frame: &[u8]) -> u16 {
    frame.get(relays::DESTINATION..relays::DESTINATION + 2).map_or(0, |bytes| word(bytes, 0))
}

/// A table over the caller's bytes.
struct View<'a> {
    own: u16,
    time: Moment,
    head: &'a [u8],
    rows: &'a [u8],
}

impl<'a> View<'a> {
    #[inline(always)]
    fn of(table: &'a [u8]) -> Result<View<'a>, Refusal> {
        let table = <&[u8; Table::LENGTH]>::try_from(table).map_err(|_| Refusal::OutOfRule)?;
        let (head, rows) = table.split_at(Table::HEAD_LENGTH);
        Ok(View { own: word(head, OWN), time: Moment(long(head, LAST_TIME)), head, rows })
    }

    /// The row to a destination, if there is one and the table is within rule.
    #[inline(always)]
    fn judged_row_to(&self, wanted: u16) -> Result<Option<&'a [u8]>, Refusal> {
        if !is_unit(self.own) || !self.has_lawful_pair() {
            return Err(Refusal::OutOfRule);
        }
        let (mut unused, mut lower, mut found) = (self.rows, 0, None);
        while unused.len() >= Table::ROW_LENGTH {
            let (row, behind) = unused.split_at(Table::ROW_LENGTH);
            let destination = word(row, DESTINATION);
            if destination <= lower {
                break;
            }
            if destination == self.own || !self.allows(row) {
                return Err(Refusal::OutOfRule);
            }
            if destination == wanted {
                found = Some(row);
            }
            lower = destination;
            unused = behind;
        }
        // They ascend from above 0, so that only the last can be to no unit.
        if lower == u16::MAX {
            return Err(Refusal::OutOfRule);
        }
        // Many bytes are joined at once, where a search for one that is not 0 would go byte by byte.
        match unused.iter().fold(0, |all, byte| all | byte) {
            0 => Ok(found),
            _ => Err(Refusal::OutOfRule),
        }
    }

    #[inline(always)]
    fn has_lawful_pair(&self) -> bool {
        let origin = word(self.head, PAIR_ORIGIN);
        match self.head[HAS_PAIR] {
            0 => origin == 0 && word(self.head, PAIR_SEQUENCE) == 0,
            1 => is_unit(origin),
            _ => false,
        }
    }

    /// Whether a row is within rule but for its destination.
    #[inline(always)]
    fn allows(&self, row: &[u8]) -> bool {
        let next_hop = word(row, NEXT_HOP);
        is_unit(next_hop)
            && next_hop != self.own
            && (1..=MOST_HOPS).contains(&row[HOPS])
            && row[QUALITY] >= LEAST_QUALITY
            && self.time.follows(Moment(long(row, TIME)))
            && row[WITHDRAWN] <= 1
    }

    /// The row to a destination, in a table within rule.
    #[inline(always)]
    fn row_to(&self, wanted: u16) -> Option<&'a [u8]> {
        self.rows.chunks_exact(Table::ROW_LENGTH).find(|row| word(row, DESTINATION) == wanted)
    }

    /// Relays a frame by the row to its destination.
    #[inline(always)]
    fn relay(
        &self,
        row: Option<&[u8]>,
        frame: &[u8],
        time: Moment,
        least_left: u32,
        out: &mut [u8],
    ) -> Result<Relayed, Refusal> {
        let data = Data::read(frame)?;
        if data.source == self.own {
            return Err(Refusal::Own);
        }
        accept(self.time, time)?;
        if data.destination == self.own {
            return Ok(Relayed::ForUs(PAYLOAD..frame.len() - 1));
        }
        if data.ttl <= 1 {
            return Err(Refusal::Ttl);
        }
        let (next_hop, left) = row.and_then(|row| route_of(row, time)).ok_or(Refusal::NoRoute)?;
        if left < least_left {
            return Err(Refusal::NoRoute);
        }
        let out = out.get_mut(..frame.len()).ok_or(Refusal::Room)?;
        out.copy_from_slice(frame);
        out[TTL] = data.ttl - 1;
        seal(out);
        Ok(Relayed::Onward { next_hop, length: frame.len(), left })
    }
}

/// The next hop of a row, and for how many more ms it is usable, if it is.
#[inline(always)]
fn route_of(row: &[u8], time: Moment) -> Option<(u16, u32)> {
    if row[WITHDRAWN] != 0 {
        return None;
    }
    let left = USABLE_AGE.checked_sub(time.since(Moment(long(row, TIME))))?;
    Some((word(row, NEXT_HOP), left))
}
