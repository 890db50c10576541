//! Cases of tables of routes by name: what the paper says in examples and warnings, each refusal of each call, and
//! times at the limits of their order; each case from every start that there is.
//! The independent table is held to the paper's words here, and the library to the independent table.

use crate::routes::calls::Ask;
use crate::routes::comparisons;
use crate::routes::drafts::Entry;
use crate::routes::forwards;
use crate::routes::refusals::every_refusal;
use crate::routes::story::*;
use crate::routes::table::*;
use crate::routes::time_left;
use crate::shared::check::{Agreement, Check};
use crate::shared::moment_drafts::{FORWARD, NOT_FORWARD, STARTS};
use crate::shared::moments::{Moment, LONGEST_STEP};

pub fn check(check: &mut Check) -> Agreement {
    for start in STARTS {
        usable_up_to_its_age(check, start)?;
        time_left::check(check, start)?;
        withdrawn_rows_go_sooner(check, start)?;
        hops_15_is_learned_and_16_is_bad(check, start)?;
        worse_offer_of_the_same_neighbour_is_believed(check, start)?;
        equal_route_of_another_neighbour_refreshes_nothing(check, start)?;
        gone_rows_use_no_room(check, start)?;
        comparisons::check(check, start)?;
        every_refusal(check, start)?;
        forwards::check(check, start)?;
        every_step(check, start)?;
        every_stored_time(check, start)?;
        round_and_round(check, start)?;
    }
    Ok(())
}

/// "Age 300,000 is usable, 300,001 is 11."
fn usable_up_to_its_age(check: &mut Check, start: Moment) -> Agreement {
    let mut story = Story::begin(check, start)?;
    story.hear(NEAR, 200, &[], start)?;
    story.finds(NEAR, start + 300_000, Some((NEAR, 1, 0)))?;
    story.finds(NEAR, start + 300_001, None)?;
    story.shows(start + 360_000, &[(NEAR, UNREACHABLE, 0, NEAR, start)])?;
    story.shows(start + 360_001, &[])
}

fn withdrawn_rows_go_sooner(check: &mut Check, start: Moment) -> Agreement {
    let mut story = Story::begin(check, start)?;
    story.hear(NEAR, 200, &[], start)?;
    let withdrawal = start + 300_000;
    story.change(Ask::Forget { unit: NEAR, time: withdrawal })?;
    story.finds(NEAR, withdrawal, None)?;
    story.shows(withdrawal + 60_000, &[(NEAR, UNREACHABLE, 0, NEAR, withdrawal)])?;
    story.shows(withdrawal + 60_001, &[])
}

/// "Hops 15 is learned as 16; 16 is bad."
fn hops_15_is_learned_and_16_is_bad(check: &mut Check, start: Moment) -> Agreement {
    let mut story = Story::begin(check, start)?;
    story.hear(NEAR, 200, &[(FAR, 15, 200, OTHER, SENT), (OTHER, 16, 200, FAR, SENT)], start)?;
    story.finds(FAR, start, Some((NEAR, 16, 300_000)))?;
    story.finds(OTHER, start, None)?;
    story.hear(NEAR, 200, &[(FAR, 16, 200, OTHER, SENT)], start + 1)?;
    story.finds(FAR, start + 1, None)?;
    let withdrawn = (FAR, UNREACHABLE, 0, NEAR, start + 1);
    story.shows(start + 1, &[(NEAR, 1, 200, NEAR, start + 1), withdrawn])
}

/// "Errors that look right: disbelieving a worse offer from the same neighbour."
fn worse_offer_of_the_same_neighbour_is_believed(check: &mut Check, start: Moment) -> Agreement {
    let mut story = Story::begin(check, start)?;
    story.hear(NEAR, 200, &[(FAR, 2, 200, OTHER, SENT)], start)?;
    story.hear(NEAR, 100, &[(FAR, 9, 60, OTHER, SENT)], start + 1)?;
    story.finds(FAR, start + 1, Some((NEAR, 10, 300_000)))?;
    story.shows(start + 1, &[(NEAR, 1, 100, NEAR, start + 1), (FAR, 10, 80, NEAR, start + 1)])
}

/// "Errors that look right: refreshing a row for another neighbour's equal route."
fn equal_route_of_another_neighbour_refreshes_nothing(check: &mut Check, start: Moment) -> Agreement {
    let mut story = Story::begin(check, start)?;
    let later = start + 1000;
    story.hear(NEAR, 200, &[(FAR, 2, 200, OTHER, SENT)], start)?;
    story.hear(OTHER, 200, &[(FAR, 2, 200, NEAR, SENT)], later)?;
    let neighbour = (OTHER, 1, 200, OTHER, later);
    story.shows(later, &[(NEAR, 1, 200, NEAR, start), neighbour, (FAR, 3, 200, NEAR, start)])?;
    story.finds(FAR, later, Some((NEAR, 3, 299_000)))?;
    story.finds(FAR, start + 300_000, Some((NEAR, 3, 0)))?;
    story.finds(FAR, start + 300_001, None)
}

/// A full table skips newcomers until a row is gone; a dead row still uses its place.
fn gone_rows_use_no_room(check: &mut Check, start: Moment) -> Agreement {
    let mut story = Story::begin(check, start)?;
    story.hear(NEAR, 200, &[], start)?;
    let entry = |unit| (unit, 1, 200, OTHER, SENT);
    let first: Vec<Entry> = (FAR..FAR + 24).map(entry).collect();
    let second: Vec<Entry> = (FAR + 24..FAR + 48).map(entry).collect();
    let later = start + 1000;
    assert_eq!(story.hear(OTHER, 200, &first, later)?.skipped, 0, "26 rows stand");
    assert_eq!(story.hear(OTHER, 200, &second, later)?.skipped, 2, "48 rows stand, and two more are offered");
    let last = FAR + 47;
    let newcomer = [entry(last)];
    assert_eq!(story.hear(OTHER, 200, &newcomer, start + 360_000)?.skipped, 1, "the first row is dead and stands");
    assert_eq!(story.hear(OTHER, 200, &newcomer, start + 360_001)?.skipped, 0, "the first row is gone");
    story.finds(last, start + 360_001, Some((OTHER, 2, 300_000)))
}

/// "The step from the last accepted time to the call's time is their wrapped difference; below 2^31 it is forward,
/// otherwise 8."
fn every_step(check: &mut Check, start: Moment) -> Agreement {
    let mut story = Story::with_routes(check, start)?;
    for step in FORWARD {
        let routed = if step <= USABLE_AGE { 0 } else { 11 };
        let statuses = [0, 0, 0, routed, routed, routed, routed];
        for (ask, status) in story.every_call(start + step).into_iter().zip(statuses) {
            story.is_answered(status, ask)?;
        }
    }
    for step in NOT_FORWARD {
        for ask in story.every_call(start + step) {
            story.is_answered(8, ask)?;
        }
    }
    Ok(())
}

/// "The rule that a stored time may not be later than the last accepted one reads by the same difference, for route
/// rows." It is judged whatever the call's time is.
fn every_stored_time(check: &mut Check, start: Moment) -> Agreement {
    let mut story = Story::begin(check, start)?;
    let mut table = Table::fresh(OWN, start).expect("this unit has an address");
    let near = Row { destination: NEAR, next_hop: NEAR, hops: 1, quality: 200, time: start, withdrawn: false };
    let farther = Row { destination: FAR + 1, hops: 2, ..near };
    for withdrawn in [false, true] {
        for age in FORWARD.into_iter().chain(NOT_FORWARD) {
            let old = Row { destination: FAR, hops: 2, time: start - age, withdrawn, ..near };
            for rows in [[near, old], [old, farther]] {
                table.rows[..2].copy_from_slice(&rows);
                table.to_bytes(&mut story.table);
                for step in [0, 1, LONGEST_STEP, u32::MAX] {
                    story.is_judged(age <= LONGEST_STEP, start + step)?;
                }
            }
        }
    }
    Ok(())
}

/// A neighbour that speaks in time, and one that speaks as seldom as may be: times pass the top, over and over.
fn round_and_round(check: &mut Check, start: Moment) -> Agreement {
    let mut story = Story::begin(check, start)?;
    let mut time = start;
    for step in [250_000; 6].into_iter().chain([LONGEST_STEP; 6]) {
        time = time + step;
        story.hear(NEAR, 200, &[], time)?;
        story.shows(time, &[(NEAR, 1, 200, NEAR, time)])?;
        story.is_answered(8, lookup(NEAR, time - 1))?;
        story.finds(NEAR, time + 300_000, Some((NEAR, 1, 0)))?;
        story.finds(NEAR, time + 300_001, None)?;
    }
    Ok(())
}
