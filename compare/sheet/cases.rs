//! Cases of sheets by name: which units may share a slot at sites of many shapes, and who is named where several
//! offend. The independent check is held to the request's words here, and the library to the independent check.

use crate::shared::check::{Agreement, Check};
use crate::sheet::check::is_answered;
use crate::sheet::drafts::*;
use crate::sheet::verdict::Verdict;

pub fn check(check: &mut Check) -> Agreement {
    for site in &SITES {
        every_pair_of_a_site(check, site)?;
    }
    four_in_a_line_in_every_order(check)?;
    any_slot_in_common(check)?;
    first_of_several_pairs(check)?;
    lowest_of_several_units(check)?;
    units_before_pairs(check)?;
    links_again_and_reversed(check)?;
    manager_or_not(check)?;
    empty_sheets(check)
}

/// A site by name: how many units there are, which are linked, and how many links two of them are apart. Three is also
/// any larger number, and what is not connected.
struct Site {
    name: &'static str,
    count: usize,
    shape: fn(usize) -> Vec<Places>,
    apart: fn(usize, usize) -> usize,
}

const SITES: [Site; 12] = [
    Site { name: "four in a line", count: 4, shape: line, apart: |one, other| one.abs_diff(other) },
    Site { name: "21 in a line", count: 21, shape: line, apart: |one, other| one.abs_diff(other) },
    Site { name: "a star of 21", count: 21, shape: star, apart: |one, other| if one.min(other) == 0 { 1 } else { 2 } },
    Site { name: "two triangles joined by a link", count: 6, shape: |_| TRIANGLES.to_vec(), apart: triangles_apart },
    Site { name: "two triangles with a unit in common", count: 5, shape: |_| BOW.to_vec(), apart: bow_apart },
    Site { name: "a ring of three", count: 3, shape: ring, apart: |_, _| 1 },
    Site { name: "a ring of four", count: 4, shape: ring, apart: |one, other| ring_apart(4, one, other) },
    Site { name: "a ring of five", count: 5, shape: ring, apart: |one, other| ring_apart(5, one, other) },
    Site { name: "a ring of six", count: 6, shape: ring, apart: |one, other| ring_apart(6, one, other) },
    Site { name: "a ring of 21", count: 21, shape: ring, apart: |one, other| ring_apart(21, one, other) },
    Site { name: "21, each linked to each", count: 21, shape: complete, apart: |_, _| 1 },
    Site { name: "21 without a link", count: 21, shape: |_| Vec::new(), apart: |_, _| 3 },
];

/// The first of each triangle is linked to that of the other.
const TRIANGLES: [Places; 7] = [(0, 1), (1, 2), (2, 0), (3, 4), (4, 5), (5, 3), (0, 3)];

fn triangles_apart(one: usize, other: usize) -> usize {
    match (one / 3 == other / 3, one % 3 == 0, other % 3 == 0) {
        (true, _, _) | (false, true, true) => 1,
        (false, false, false) => 3,
        _ => 2,
    }
}

/// Both triangles have the first unit.
const BOW: [Places; 6] = [(0, 1), (1, 2), (2, 0), (0, 3), (3, 4), (4, 0)];

fn bow_apart(one: usize, other: usize) -> usize {
    match (one.min(other), one.max(other)) {
        (0, _) | (1, 2) | (3, 4) => 1,
        _ => 2,
    }
}

fn ring_apart(count: usize, one: usize, other: usize) -> usize {
    let steps = one.abs_diff(other);
    steps.min(count - steps)
}

/// Addresses whose low bytes descend where the high bytes ascend.
fn ascending(count: usize) -> Vec<u16> {
    (0..count as u16).map(|place| 0x0120 + place * 0x00FF).collect()
}

fn descending(count: usize) -> Vec<u16> {
    ascending(count).into_iter().rev().collect()
}

/// What is found where the units at two places share a slot, and no others do.
fn verdict_on(units: &[u16], (one, other): Places, links_apart: usize) -> Verdict {
    let (lower, higher) = (units[one].min(units[other]), units[one].max(units[other]));
    match links_apart {
        1 => Verdict::Linked(lower, higher),
        2 => Verdict::Neighbours(lower, higher),
        _ => Verdict::Fine,
    }
}

/// A slot for each unit, and for the one at the second of two places also that of the one at the first.
fn sharing(count: usize, (one, other): Places) -> Vec<u64> {
    let mut masks: Vec<u64> = (0..count).map(|place| 1 << place).collect();
    masks[other] |= masks[one];
    masks
}

/// Each pair in turn is the only one that shares a slot; with addresses and rows up and down along the site, and in any
/// order.
fn every_pair_of_a_site(check: &mut Check, site: &Site) -> Agreement {
    let Site { name, count, shape, apart } = *site;
    for units in [ascending(count), descending(count), check.random.shuffled(ascending(count))] {
        let links = links_of(&units, &shape(count));
        let apiece: Vec<u64> = (0..count).map(|place| 1 << place).collect();
        let fine = proposal(largest_plan(), &links, &rows_of(&units, &apiece));
        is_answered(check, Ok(Verdict::Fine), &fine, name)?;
        for (one, other) in complete(count) {
            let rows = rows_of(&units, &sharing(count, (one, other)));
            let expected = verdict_on(&units, (one, other), apart(one, other));
            let words = format!("{}: {} and {} share a slot", name, one, other);
            for rows in [rows.clone(), check.random.shuffled(rows)] {
                is_answered(check, Ok(expected), &proposal(largest_plan(), &links, &rows), &words)?;
            }
        }
    }
    Ok(())
}

/// Four addresses that differ in either byte, at the places of a line in every order, and in the rows in every order.
fn four_in_a_line_in_every_order(check: &mut Check) -> Agreement {
    for addresses in orders_of_four() {
        let units = addresses.map(|place| [0x0001, 0x00FE, 0x0100, 0x0101][place]);
        let links = links_of(&units, &line(4));
        for (one, other) in complete(4) {
            let rows = rows_of(&units, &sharing(4, (one, other)));
            let expected = verdict_on(&units, (one, other), one.abs_diff(other));
            for order in orders_of_four() {
                let rows = order.map(|place| rows[place]);
                is_answered(check, Ok(expected), &proposal(plan(3, 4, 6), &links, &rows), "four in a line")?;
            }
        }
    }
    Ok(())
}

fn orders_of_four() -> Vec<[usize; 4]> {
    let any = (0..256).map(|number: usize| [number & 3, number >> 2 & 3, number >> 4 & 3, number >> 6]);
    any.filter(|order| (0..4).all(|place| order.contains(&place))).collect()
}

/// Two linked units with up to four slots each have any one of them in common, and no other.
fn any_slot_in_common(check: &mut Check) -> Agreement {
    let (plan, links) = (plan(1, 2, 44), [(0x0201, 0x0202)]);
    for common in 0..44 {
        let others = |first: u8| (first..44).step_by(2).filter(|slot| *slot != common).take(3);
        for (one, other) in [(0, 1), (1, 0), (20, 21), (38, 37)] {
            let [one, other] = [one, other].map(|first| slots(&others(first).collect::<Vec<u8>>()));
            let rows = [(0x0201, one | 1 << common), (0x0202, other | 1 << common)];
            let expected = Verdict::Linked(0x0201, 0x0202);
            is_answered(check, Ok(expected), &proposal(plan, &links, &rows), "one slot in common")?;
            let rows = [(0x0201, one), (0x0202, other | 1 << common)];
            is_answered(check, Ok(Verdict::Fine), &proposal(plan, &links, &rows), "no slot in common")?;
        }
    }
    Ok(())
}

const A: u16 = 0x0105;
const B: u16 = 0x0204;
const C: u16 = 0x0303;
const D: u16 = 0x0402;
const E: u16 = 0x0501;

/// "The first offending pair, in ascending order": by its lower unit, then by its higher one.
fn first_of_several_pairs(check: &mut Check) -> Agreement {
    let all = links_of(&[A, B, C, D, E], &complete(5));
    for (words, masks, links, expected) in [
        ("all share", [1, 1, 1, 1, 1], &all[..], Verdict::Linked(A, B)),
        ("the lowest of both lower ones", [1, 2, 2, 1, 4], &all, Verdict::Linked(A, D)),
        ("the lowest of both higher ones", [3, 4, 1, 2, 8], &all, Verdict::Linked(A, C)),
        ("two pairs apart", [4, 1, 2, 1, 2], &all, Verdict::Linked(B, D)),
        ("the last pair", [1, 2, 4, 8, 8], &all, Verdict::Linked(D, E)),
        ("a lower pair is not near", [1, 1, 2, 4, 2], &[(C, E)], Verdict::Linked(C, E)),
        ("neighbours below a linked pair", [1, 2, 1, 2, 4], &[(A, E), (E, C), (B, D)], Verdict::Neighbours(A, C)),
        ("a linked pair below neighbours", [1, 2, 4, 1, 2], &[(A, D), (B, C), (C, E)], Verdict::Linked(A, D)),
        ("neighbours below, by the lowest", [8, 1, 1, 2, 2], &[(A, B), (A, C), (D, E)], Verdict::Neighbours(B, C)),
        ("linked, with a neighbour too", [8, 1, 1, 2, 4], &[(A, B), (A, C), (B, C)], Verdict::Linked(B, C)),
    ] {
        let rows = rows_of(&[A, B, C, D, E], &masks);
        for rows in [rows.clone(), rows.iter().rev().copied().collect(), check.random.shuffled(rows)] {
            is_answered(check, Ok(expected), &proposal(plan(1, 5, 8), links, &rows), words)?;
        }
    }
    Ok(())
}

/// With no slot, with five, with one past the plan's, and with all of that.
const UNLAWFUL: [u64; 4] = [0, 0x1F, 0x100, u64::MAX];

/// Each unit that offends in each way is named, if none below it does.
fn lowest_of_several_units(check: &mut Check) -> Agreement {
    let units = [A, B, C, D, E];
    let links = links_of(&units, &line(5));
    for lowest in 0..5 {
        for above in 0..1 << (4 - lowest) {
            for unlawful in UNLAWFUL {
                let mask = |place: usize| match place > lowest && above >> (place - lowest - 1) & 1 == 1 {
                    true => check.random.one_of(&UNLAWFUL),
                    false => 1 << place,
                };
                let mut masks: Vec<u64> = (0..5).map(mask).collect();
                masks[lowest] = unlawful;
                let rows = check.random.shuffled(rows_of(&units, &masks));
                let expected = Verdict::Unit(units[lowest]);
                is_answered(check, Ok(expected), &proposal(plan(1, 5, 8), &links, &rows), "the lowest unit")?;
            }
        }
    }
    Ok(())
}

/// "Units first", even if all others are in offending pairs below them.
fn units_before_pairs(check: &mut Check) -> Agreement {
    let units = [A, B, C, D, E];
    let links = links_of(&units, &complete(5));
    for (place, unit) in units.into_iter().enumerate() {
        for unlawful in UNLAWFUL {
            let mut masks = [1; 5];
            masks[place] = unlawful;
            let rows = rows_of(&units, &masks);
            is_answered(check, Ok(Verdict::Unit(unit)), &proposal(plan(1, 5, 8), &links, &rows), "units first")?;
        }
    }
    Ok(())
}

/// A link counts once, whichever end it names first and however often it is given.
fn links_again_and_reversed(check: &mut Check) -> Agreement {
    let rows = rows_of(&[A, B, C, D], &[1, 2, 4, 1]);
    let sharing = rows_of(&[A, B, C, D], &[1, 2, 1, 4]);
    let links = [(A, B), (B, C), (C, D)];
    let reversed = links.map(|(one, other)| (other, one));
    let mixed = [(B, A), (B, C), (D, C)];
    let (twice, both) = ([links, links].concat(), [links, reversed].concat());
    for links in [&links[..], &reversed, &mixed, &twice, &both, &both.repeat(20)] {
        let fine = proposal(plan(3, 4, 6), links, &rows);
        is_answered(check, Ok(Verdict::Fine), &fine, "links again and reversed")?;
        let neighbours = proposal(plan(3, 4, 6), links, &sharing);
        is_answered(check, Ok(Verdict::Neighbours(A, C)), &neighbours, "links again and reversed")?;
    }
    Ok(())
}

/// The plan's manager is a unit like others where it is on the sheet, and it need not be.
fn manager_or_not(check: &mut Check) -> Agreement {
    let plan = plan(3, 4, 6);
    let manager = plan.manager;
    for (rows, links, expected) in [
        (vec![(A, 1), (B, 2)], vec![(A, B)], Verdict::Fine),
        (vec![(manager, 4), (A, 1)], vec![(A, manager)], Verdict::Fine),
        (vec![(manager, 1), (A, 1)], vec![], Verdict::Fine),
        (vec![(manager, 1), (A, 1)], vec![(A, manager)], Verdict::Linked(manager, A)),
        (vec![(A, 1), (B, 1), (manager, 2)], vec![(A, manager), (manager, B)], Verdict::Neighbours(A, B)),
        (vec![(A, 1), (manager, 0)], vec![], Verdict::Unit(manager)),
    ] {
        is_answered(check, Ok(expected), &proposal(plan, &links, &rows), "the manager on a sheet")?;
    }
    Ok(())
}

fn empty_sheets(check: &mut Check) -> Agreement {
    for plan in [plan(1, 2, 2), plan(10, 2, 2), largest_plan()] {
        is_answered(check, Ok(Verdict::Fine), &proposal(plan, &[], &[]), "an empty sheet")?;
    }
    Ok(())
}
