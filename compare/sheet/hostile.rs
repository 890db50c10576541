//! Hostile buffers for the check of a sheet: every length of each, every byte of each changed to every other, and
//! random bytes.

use crate::shared::check::{Agreement, Check};
use crate::sheet::check::put_both_ways;
use crate::sheet::drafts::*;
use crate::sheet::verdict::{Proposal, LINK_LENGTH, ROW_LENGTH};

const UNITS: [u16; 4] = [0x0105, 0x0204, 0x0303, 0x0402];

/// How many proposals are made of random bytes.
const RANDOM_PROPOSALS: usize = 10_000;

pub fn check(check: &mut Check) -> Agreement {
    let links = links_of(&UNITS, &line(4));
    for masks in [[1, 2, 4, 1], [1, 2, 1, 8], [1, 2, 4, 0]] {
        let whole = proposal(plan(3, 4, 6), &links, &rows_of(&UNITS, &masks));
        for buffer in BUFFERS {
            every_length(check, &whole, buffer)?;
            every_byte(check, &whole, buffer)?;
        }
    }
    for _ in 0..RANDOM_PROPOSALS {
        random_bytes(check)?;
    }
    Ok(())
}

/// Picks one of the buffers of a proposal.
type Buffer = fn(&mut Proposal) -> &mut Vec<u8>;

const BUFFERS: [Buffer; 3] =
    [|proposal| &mut proposal.plan, |proposal| &mut proposal.links, |proposal| &mut proposal.sheet];

/// From none to more than another row: good as far as it goes, the same again behind it, and random. The buffers beside
/// it are whole, or empty.
fn every_length(check: &mut Check, whole: &Proposal, buffer: Buffer) -> Agreement {
    let good = buffer(&mut whole.clone()).clone();
    let nothing = Proposal { plan: whole.plan.clone(), links: Vec::new(), sheet: Vec::new() };
    for length in 0..good.len() + 2 * ROW_LENGTH {
        let (mut cut, again) = (good.clone(), good.iter().cycle().take(length).copied().collect());
        cut.resize(length, 0);
        for bytes in [cut, again, check.random.bytes(length)] {
            for beside in [whole, &nothing] {
                let mut changed = beside.clone();
                buffer(&mut changed).clone_from(&bytes);
                put_both_ways(check, &changed)?;
            }
        }
    }
    Ok(())
}

fn every_byte(check: &mut Check, whole: &Proposal, buffer: Buffer) -> Agreement {
    let mut changed = whole.clone();
    for place in 0..buffer(&mut changed).len() {
        let good = buffer(&mut changed)[place];
        for byte in 0..=0xFF {
            buffer(&mut changed)[place] = byte;
            put_both_ways(check, &changed)?;
        }
        buffer(&mut changed)[place] = good;
    }
    Ok(())
}

/// Of any lengths, or of right ones; the plan is random too, or one within rule.
fn random_bytes(check: &mut Check) -> Agreement {
    let random = &mut check.random;
    let (links, rows) = (random.below(12), random.below(8));
    let (odd_links, odd_rows) = (random.one_of(&[0, 0, 0, 1, 2, 3]), random.one_of(&[0, 0, 0, 1, 2, 9]));
    let links = random.bytes(LINK_LENGTH * links + odd_links);
    let sheet = random.bytes(ROW_LENGTH * rows + odd_rows);
    let length = random.below(16);
    let plan = match random.below(4) {
        0 => random.bytes(length),
        1 => random.bytes(10),
        _ => proposal(plan(3, 8, 9), &[], &[]).plan,
    };
    put_both_ways(check, &Proposal { plan, links, sheet })
}
