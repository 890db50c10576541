//! Every limit of a sheet in turn: the slots of each plan, how many a unit has, how many units there are, their
//! addresses, and links and rows in great numbers.

use crate::book::members::MOST_HELD;
use crate::book::site::Plan;
use crate::frames::kinds::BEACONS;
use crate::shared::check::{Agreement, Check};
use crate::shared::numbers::is_unit;
use crate::shared::refusal::Refusal;
use crate::sheet::check::is_answered;
use crate::sheet::drafts::*;
use crate::sheet::verdict::{Verdict, ROW_LENGTH};

const FIRST: u16 = 0x0201;
const SECOND: u16 = 0x0202;
const THIRD: u16 = 0x0203;

pub fn check(check: &mut Check) -> Agreement {
    every_slot_of_every_plan(check)?;
    every_number_of_slots(check)?;
    every_number_of_units(check)?;
    every_address(check)?;
    many_links(check)?;
    many_rows(check)?;
    both_kinds_of_beacons(check)
}

/// "Within D": alone, and beside a slot that is.
fn every_slot_of_every_plan(check: &mut Check) -> Agreement {
    for data_slots in 2..=44 {
        for slot in 0..64 {
            let expected = if slot < data_slots { Verdict::Fine } else { Verdict::Unit(FIRST) };
            for slots in [1 << slot, 1 | 1 << slot] {
                let words = format!("slot {} of {}", slot, data_slots);
                let proposal = proposal(plan(1, 2, data_slots), &[], &[(FIRST, slots)]);
                is_answered(check, Ok(expected), &proposal, &words)?;
            }
        }
    }
    Ok(())
}

/// "1 to 4": the lowest ones, the highest ones, and any.
fn every_number_of_slots(check: &mut Check) -> Agreement {
    for count in 0..=44 {
        let expected = if (1..=MOST_HELD).contains(&(count as u32)) { Verdict::Fine } else { Verdict::Unit(FIRST) };
        let any = check.random.shuffled((0..44).collect());
        for chosen in [(0..44).collect(), (0..44).rev().collect(), any] {
            let proposal = proposal(plan(1, 2, 44), &[], &[(FIRST, slots(&chosen[..count]))]);
            is_answered(check, Ok(expected), &proposal, &format!("{} slots", count))?;
        }
    }
    Ok(())
}

/// "At most as many units as the plan has rows."
fn every_number_of_units(check: &mut Check) -> Agreement {
    for rows in 2..=21 {
        for count in 0..=2 * u16::from(rows) {
            let units: Vec<Row> = (FIRST..).take(count.into()).map(|unit| (unit, 1)).collect();
            let expected = if count <= rows.into() { Ok(Verdict::Fine) } else { Err(Refusal::OutOfRule) };
            let words = format!("{} units for {} rows", count, rows);
            is_answered(check, expected, &proposal(plan(1, rows, rows), &[], &units), &words)?;
        }
    }
    Ok(())
}

/// 1 to 0xFFFE, in every row and at either end of every link.
fn every_address(check: &mut Check) -> Agreement {
    for address in [0, 1, 0x00FF, 0x0100, 0x7FFF, 0x8000, 0xFF00, 0xFFFE, 0xFFFF] {
        for place in 0..3 {
            let mut units = [FIRST, SECOND, THIRD];
            units[place] = address;
            let rows = rows_of(&units, &[1, 2, 4]);
            let (good, links) = (proposal(plan(3, 4, 6), &[], &rows), links_of(&units, &ring(3)));
            let expected = if is_unit(address) { Ok(Verdict::Fine) } else { Err(Refusal::Field) };
            let words = format!("the address {:#06x}", address);
            is_answered(check, expected, &good, &words)?;
            is_answered(check, expected, &proposal(plan(3, 4, 6), &links, &rows), &words)?;
            let others = rows_of(&[FIRST, SECOND, THIRD], &[1, 2, 4]);
            let expected = if is_unit(address) { Refusal::OutOfRule } else { Refusal::Field };
            is_answered(check, Err(expected), &proposal(plan(3, 4, 6), &links, &others), &words)?;
        }
    }
    Ok(())
}

/// The last of so many counts as the first does, also where 16 bits are too few for the bytes that they have.
fn many_links(check: &mut Check) -> Agreement {
    let rows = rows_of(&[FIRST, SECOND, THIRD], &[1, 2, 1]);
    for count in [63, 64, 210, 16_383, 16_384, 16_385, 100_000] {
        let same = vec![(FIRST, SECOND); count];
        for (last, expected) in [
            ((SECOND, FIRST), Ok(Verdict::Fine)),
            ((THIRD, SECOND), Ok(Verdict::Neighbours(FIRST, THIRD))),
            ((THIRD, FIRST), Ok(Verdict::Linked(FIRST, THIRD))),
            ((FIRST, FIRST), Err(Refusal::OutOfRule)),
            ((FIRST, THIRD + 1), Err(Refusal::OutOfRule)),
            ((FIRST, 0), Err(Refusal::Field)),
        ] {
            let links = [&same[..], &[last]].concat();
            is_answered(check, expected, &proposal(plan(3, 4, 6), &links, &rows), &format!("{} links", count))?;
        }
    }
    Ok(())
}

/// How many rows have a number of bytes whose low bits say none: 8 bits, and 16.
const ROWS_OF_NO_LOW_BITS: [usize; 2] = [5 * 0x100 / ROW_LENGTH, 5 * 0x1_0000 / ROW_LENGTH];

/// Too many are refused, and not cut to a few; the address of the last comes before that.
fn many_rows(check: &mut Check) -> Agreement {
    for most in ROWS_OF_NO_LOW_BITS {
        for count in [most, most + 1, most + 2] {
            let mut rows: Vec<Row> = (1..=count as u16).map(|unit| (unit, 1)).collect();
            let words = format!("{} rows", count);
            is_answered(check, Err(Refusal::OutOfRule), &proposal(plan(3, 4, 6), &[], &rows), &words)?;
            rows[count - 1].0 = 0;
            is_answered(check, Err(Refusal::Field), &proposal(plan(3, 4, 6), &[], &rows), &words)?;
        }
    }
    Ok(())
}

/// A sheet does not depend on the kind, but a plan has to have one; only with short beacons are slots as long as this.
fn both_kinds_of_beacons(check: &mut Check) -> Agreement {
    for beacon in BEACONS {
        for slot_ms in [1, 0xFFFF] {
            let site = Plan { beacon, slot_ms, ..plan(3, 4, 6) };
            let expected = site.checked().map(|_| Verdict::Fine);
            is_answered(check, expected, &proposal(site, &[], &[(FIRST, 1)]), "a kind of beacons")?;
        }
    }
    Ok(())
}
