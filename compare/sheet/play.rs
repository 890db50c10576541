//! What a sheet is for: "no unit in its slot hears, or competes with, a second sender within one link of any receiver
//! linked to it". The slots of a proposal are played one after the other, and who meets whom is seen. No rule of pairs
//! is in it, so that it says by itself which pair a check has to name.

use crate::shared::numbers::word;
use crate::sheet::verdict::{Proposal, LINK_LENGTH, ROW_LENGTH};

/// The first pair that meets in some slot, in ascending order. The proposal is not one to be refused.
pub fn first_meeting(proposal: &Proposal) -> Option<(u16, u16)> {
    let rows: Vec<&[u8]> = proposal.sheet.chunks_exact(ROW_LENGTH).collect();
    let hears = who_hears_whom(&rows, &proposal.links);
    let in_slot = |slot: usize| meetings(&senders(&rows, slot), &hears);
    let pair = |(one, other): (usize, usize)| {
        let (one, other) = (word(rows[one], 0), word(rows[other], 0));
        (one.min(other), one.max(other))
    };
    (0..64).flat_map(in_slot).map(pair).min()
}

/// For each row, whether its unit hears that of each row.
fn who_hears_whom(rows: &[&[u8]], links: &[u8]) -> Vec<Vec<bool>> {
    let place_of = |address: &[u8]| {
        rows.iter().position(|row| row[..2] == *address).expect("a link names units that are on the sheet")
    };
    let mut hears = vec![vec![false; rows.len()]; rows.len()];
    for link in links.chunks_exact(LINK_LENGTH) {
        let (one, other) = (place_of(&link[..2]), place_of(&link[2..]));
        hears[one][other] = true;
        hears[other][one] = true;
    }
    hears
}

fn senders(rows: &[&[u8]], slot: usize) -> Vec<usize> {
    (0..rows.len()).filter(|place| rows[*place][2 + slot / 8] & 1 << (slot % 8) != 0).collect()
}

/// Each sender with each second one that it hears, and that is or is heard by a unit that hears the first.
fn meetings(senders: &[usize], hears: &[Vec<bool>]) -> Vec<(usize, usize)> {
    let mut met = Vec::new();
    for &sender in senders {
        for &second in senders.iter().filter(|second| **second != sender) {
            let meet_at = |receiver: usize| hears[receiver][sender] && (receiver == second || hears[receiver][second]);
            if hears[sender][second] || (0..hears.len()).any(meet_at) {
                met.push((sender, second));
            }
        }
    }
    met
}
