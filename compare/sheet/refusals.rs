//! Each reason for which a proposal is refused, by itself and beside each other one, on sheets that are fine and on
//! sheets that offend: of two reasons the first in order gives the number.

use crate::book::site::Plan;
use crate::frames::kinds::{BEACON, SHORT_BEACON};
use crate::shared::check::{Agreement, Check};
use crate::shared::refusal::Refusal;
use crate::sheet::check::is_answered;
use crate::sheet::drafts::*;
use crate::sheet::verdict::{Proposal, Reason, Verdict, LINK_LENGTH, ROW_LENGTH};

/// The units of the sheet, of which the last has no link, and two that are not on it.
const UNITS: [u16; 5] = [0x0105, 0x0204, 0x0303, 0x0402, 0x0501];
const STRANGER: u16 = 0x0304;
const OTHER_STRANGER: u16 = 0x0203;

pub fn check(check: &mut Check) -> Agreement {
    for (masks, verdict) in [
        ([1, 2, 4, 1, 2], Verdict::Fine),
        ([1, 0, 4, 1, 2], Verdict::Unit(UNITS[1])),
        ([1, 1, 1, 1, 1], Verdict::Linked(UNITS[0], UNITS[1])),
        ([1, 2, 1, 2, 1], Verdict::Neighbours(UNITS[0], UNITS[2])),
    ] {
        let whole = proposal(plan(3, 5, 8), &links_of(&UNITS, &line(4)), &rows_of(&UNITS, &masks));
        is_answered(check, Ok(verdict), &whole, "a whole proposal")?;
        every_way(check, &whole)?;
        every_pair_of_ways(check, &whole)?;
    }
    links_on_empty_sheets(check)
}

/// A way to have a proposal refused, in words, for which reason, and the change.
type Way = (&'static str, Reason, fn(&mut Proposal));

const WAYS: [Way; 44] = [
    ("no plan", Reason::PlanLength, |proposal| proposal.plan.clear()),
    ("a byte of the plan missing", Reason::PlanLength, |proposal| proposal.plan.truncate(Plan::LENGTH - 1)),
    ("a byte too many in the plan", Reason::PlanLength, |proposal| proposal.plan.push(0)),
    ("256 bytes too many in the plan", Reason::PlanLength, |proposal| proposal.plan.resize(Plan::LENGTH + 0x100, 0)),
    ("a byte of a link missing", Reason::LinksLength, |proposal| shorten(&mut proposal.links)),
    ("a byte too many in the links", Reason::LinksLength, |proposal| proposal.links.push(1)),
    ("an address too many in the links", Reason::LinksLength, |proposal| proposal.links.extend([1, 0])),
    ("a byte of a row missing", Reason::SheetLength, |proposal| shorten(&mut proposal.sheet)),
    ("a byte too many on the sheet", Reason::SheetLength, |proposal| proposal.sheet.push(1)),
    ("an address too many on the sheet", Reason::SheetLength, |proposal| proposal.sheet.extend([1, 0])),
    ("half a row too many", Reason::SheetLength, |proposal| proposal.sheet.extend([1, 0, 1, 0, 0])),
    ("a first unit of 0", Reason::AddressOnSheet, |proposal| set_row(proposal, 0, 0)),
    ("a first unit that is every unit", Reason::AddressOnSheet, |proposal| set_row(proposal, 0, 0xFFFF)),
    ("a unit of 0", Reason::AddressOnSheet, |proposal| set_row(proposal, 2, 0)),
    ("a last unit of 0", Reason::AddressOnSheet, |proposal| set_last_row(proposal, 0)),
    ("a last unit that is every unit", Reason::AddressOnSheet, |proposal| set_last_row(proposal, 0xFFFF)),
    ("a first link from 0", Reason::AddressInLink, |proposal| set_end(proposal, 0, 0)),
    ("a first link to every unit", Reason::AddressInLink, |proposal| set_end(proposal, 1, 0xFFFF)),
    ("a last link from every unit", Reason::AddressInLink, |proposal| add_link(proposal, (0xFFFF, UNITS[0]))),
    ("a last link to 0", Reason::AddressInLink, |proposal| add_link(proposal, (UNITS[0], 0))),
    ("a link of 0 with itself", Reason::AddressInLink, |proposal| add_link(proposal, (0, 0))),
    ("a network of 0", Reason::Plan, |proposal| proposal.plan[0] = 0),
    ("a manager of 0", Reason::Plan, |proposal| proposal.plan[3] = 0),
    ("a manager that is every unit", Reason::Plan, |proposal| proposal.plan[2..4].fill(0xFF)),
    ("no hops", Reason::Plan, |proposal| proposal.plan[4] = 0),
    ("11 hops", Reason::Plan, |proposal| proposal.plan[4] = 11),
    ("no rows", Reason::Plan, |proposal| proposal.plan[5] = 0),
    ("fewer slots than rows", Reason::Plan, |proposal| proposal.plan[6] = 3),
    ("52 active slots", Reason::Plan, |proposal| proposal.plan[6] = 41),
    ("slots of no time", Reason::Plan, |proposal| proposal.plan[7] = 0),
    ("slots too long for a long beacon", Reason::Plan, |proposal| proposal.plan[8] = 0xFF),
    ("a type before beacons", Reason::Plan, |proposal| proposal.plan[9] = BEACON - 1),
    ("a type behind beacons", Reason::Plan, |proposal| proposal.plan[9] = SHORT_BEACON + 1),
    ("a unit too many", Reason::TooManyUnits, |proposal| proposal.sheet.extend(sheet_bytes(&[(STRANGER, 8)]))),
    ("a row too few in the plan", Reason::TooManyUnits, |proposal| proposal.plan[5] = 4),
    ("the first unit again", Reason::UnitTwice, |proposal| set_last_row(proposal, UNITS[0])),
    ("the last but one again", Reason::UnitTwice, |proposal| set_last_row(proposal, UNITS[3])),
    ("a whole row again", Reason::UnitTwice, |proposal| proposal.sheet.copy_within(..ROW_LENGTH, 4 * ROW_LENGTH)),
    ("a link to a stranger", Reason::LinkOfStranger, |proposal| add_link(proposal, (UNITS[0], STRANGER))),
    ("a link from a stranger", Reason::LinkOfStranger, |proposal| set_end(proposal, 0, STRANGER)),
    ("a link of strangers", Reason::LinkOfStranger, |proposal| add_link(proposal, (OTHER_STRANGER, STRANGER))),
    ("a link of one stranger", Reason::LinkOfStranger, |proposal| add_link(proposal, (STRANGER, STRANGER))),
    ("a last link of one unit", Reason::LinkOfOneUnit, |proposal| add_link(proposal, (UNITS[4], UNITS[4]))),
    ("a first link of one unit", Reason::LinkOfOneUnit, |proposal| set_end(proposal, 1, UNITS[0])),
];

fn every_way(check: &mut Check, whole: &Proposal) -> Agreement {
    for (words, reason, change) in &WAYS {
        let mut changed = whole.clone();
        change(&mut changed);
        is_answered(check, Err(reason.refusal()), &changed, words)?;
    }
    Ok(())
}

/// The change for the later reason is made first, so that the earlier one holds in the end.
fn every_pair_of_ways(check: &mut Check, whole: &Proposal) -> Agreement {
    for (words, reason, change) in &WAYS {
        for (later_words, _, change_later) in WAYS.iter().filter(|(_, later, _)| later > reason) {
            let mut changed = whole.clone();
            change_later(&mut changed);
            change(&mut changed);
            let words = format!("{}, and {}", words, later_words);
            is_answered(check, Err(reason.refusal()), &changed, &words)?;
        }
    }
    Ok(())
}

/// With nobody on the sheet, every link names somebody who is not.
fn links_on_empty_sheets(check: &mut Check) -> Agreement {
    for (link, refusal) in [
        ((UNITS[0], UNITS[1]), Refusal::OutOfRule),
        ((UNITS[0], UNITS[0]), Refusal::OutOfRule),
        ((UNITS[0], 0), Refusal::Field),
        ((0xFFFF, UNITS[0]), Refusal::Field),
    ] {
        is_answered(check, Err(refusal), &proposal(plan(3, 5, 8), &[link], &[]), "a link on an empty sheet")?;
    }
    Ok(())
}

fn shorten(bytes: &mut Vec<u8>) {
    bytes.truncate(bytes.len() - 1);
}

fn set(bytes: &mut [u8], place: usize, address: u16) {
    bytes[place..place + 2].copy_from_slice(&address.to_le_bytes());
}

fn set_row(proposal: &mut Proposal, row: usize, address: u16) {
    set(&mut proposal.sheet, ROW_LENGTH * row, address);
}

fn set_last_row(proposal: &mut Proposal, address: u16) {
    let rows = proposal.sheet.len() / ROW_LENGTH;
    set_row(proposal, rows - 1, address);
}

/// Of the ends of all links, those of the first come first.
fn set_end(proposal: &mut Proposal, end: usize, address: u16) {
    set(&mut proposal.links, LINK_LENGTH / 2 * end, address);
}

fn add_link(proposal: &mut Proposal, link: Link) {
    proposal.links.extend(link_bytes(&[link]));
}
