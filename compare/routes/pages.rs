//! The pages of the independent table's own update.

use crate::frames::bodies::seal;
use crate::frames::kinds::{ENTRY_LENGTH, ROUTING_UPDATE};
use crate::routes::table::{Row, Table, SHORTEST_UPDATE, UNREACHABLE, UPDATE_HEAD};
use crate::shared::moments::{accept, Moment};
use crate::shared::refusal::Refusal;

pub const ROWS_OF_A_PAGE: usize = 24;

impl Table {
    /// Writes a page of this unit's update, and answers its length.
    #[inline(never)]
    pub fn page(&self, page: u32, time: Moment, out: &mut [u8]) -> Result<usize, Refusal> {
        let used = self.used_rows()?;
        accept(self.time, time)?;
        // Gone rows are not counted, so a page's first row is found by walking.
        let standing = || self.rows[..used].iter().filter(|row| !row.is_gone(time));
        let rows_before = page as usize * ROWS_OF_A_PAGE;
        let count = match standing().count().checked_sub(rows_before) {
            Some(left) if left > 0 || page == 0 => left.min(ROWS_OF_A_PAGE),
            _ => return Err(Refusal::OutOfRule),
        };
        let length = SHORTEST_UPDATE + count * ENTRY_LENGTH;
        let out = out.get_mut(..length).ok_or(Refusal::Room)?;
        out[0] = ROUTING_UPDATE;
        out[1..3].copy_from_slice(&self.own.to_le_bytes());
        out[3] = count as u8;
        out[4..8].copy_from_slice(&time.0.to_le_bytes());
        let entries = out[UPDATE_HEAD..].chunks_exact_mut(ENTRY_LENGTH);
        for (entry, row) in entries.zip(standing().skip(rows_before)) {
            write_entry(row, time, entry);
        }
        seal(out);
        Ok(length)
    }
}

/// A dead row goes out as unreachable, with its stored time and next hop.
fn write_entry(row: &Row, time: Moment, entry: &mut [u8]) {
    let (hops, quality) = match row.is_usable(time) {
        true => (row.hops, row.quality),
        false => (UNREACHABLE, 0),
    };
    entry[0..2].copy_from_slice(&row.destination.to_le_bytes());
    entry[2] = hops;
    entry[3] = quality;
    entry[4..6].copy_from_slice(&row.next_hop.to_le_bytes());
    entry[6..10].copy_from_slice(&row.time.0.to_le_bytes());
}
