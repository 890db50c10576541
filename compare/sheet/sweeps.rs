//! Small sites in full: every set of links between a few units, with every way to give them the first slots.

use crate::shared::check::{Agreement, Check};
use crate::sheet::check::put;
use crate::sheet::drafts::*;

/// Addresses whose order is another by their low bytes, and another by their high ones.
const UNITS: [u16; 5] = [0x0203, 0x0104, 0x0402, 0x0301, 0x0302];

pub fn check(check: &mut Check) -> Agreement {
    every_site(check, 2, &[1, 2, 3])?;
    every_site(check, 3, &[1, 2, 3])?;
    every_site(check, 4, &[1, 2, 3])?;
    every_site(check, 5, &[1, 2])
}

/// Of so many units, each of which has any of these sets of slots.
fn every_site(check: &mut Check, count: usize, choices: &[u64]) -> Agreement {
    let all = links_of(&UNITS[..count], &complete(count));
    for chosen in 0..1_usize << all.len() {
        let links: Vec<Link> =
            all.iter().enumerate().filter(|(place, _)| chosen >> place & 1 == 1).map(|(_, link)| *link).collect();
        for number in 0..choices.len().pow(count as u32) {
            let rows = rows_of(&UNITS[..count], &masks(count, choices, number));
            put(check, &proposal(plan(3, 5, 8), &links, &rows))?;
        }
    }
    Ok(())
}

/// The slots of each unit, of which there are as many ways as numbers.
fn masks(count: usize, choices: &[u64], number: usize) -> Vec<u64> {
    (0..count as u32).map(|place| choices[number / choices.len().pow(place) % choices.len()]).collect()
}
