//! Cases by name of the time that a route has left, in ms: what looking up and relaying say of it, the smallest one
//! that a relay is given, and who looks at none.

use crate::frames::kinds::BEACONS;
use crate::routes::calls::{Ask, Forward, Relay, TableLeft};
use crate::routes::drafts::{smallest_times, LEFT_BEFORE};
use crate::routes::story::*;
use crate::shared::check::{Agreement, Check, Difference};
use crate::shared::moments::{Moment, LONGEST_STEP};
use crate::shared::refusal::ACCEPTED;

/// Ages of a row, and what it has left: "0 at age 300,000", and older ones are not usable.
const LEFT_AT_AGES: [(u32, Option<u32>); 10] = [
    (0, Some(300_000)),
    (1, Some(299_999)),
    (60_001, Some(239_999)),
    (299_999, Some(1)),
    (300_000, Some(0)),
    (300_001, None),
    (360_000, None),
    (360_001, None),
    (600_000, None),
    (LONGEST_STEP, None),
];

pub fn check(check: &mut Check, start: Moment) -> Agreement {
    let mut story = Story::with_routes(check, start)?;
    for (age, left) in LEFT_AT_AGES {
        let time = start + age;
        lookup_says_it(&mut story, time, left)?;
        relay_refuses_below_the_smallest(&mut story, time, left)?;
        payload_for_us_looks_at_none(&mut story, time)?;
        forwarding_names_none(&mut story, time, left.is_some())?;
    }
    heard_again_has_all_of_it(check, start)?;
    withdrawn_has_none(check, start)
}

impl Story<'_> {
    /// The call is accepted and leaves this time, or is 11 and leaves what was there before.
    fn has_left(&mut self, left: Option<u32>, before: u32, ask: &Ask) -> Result<TableLeft, Difference> {
        let status = if left.is_some() { ACCEPTED } else { 11 };
        let after = self.check.is_answered(status, &self.table, ask)?.left;
        assert_eq!(after.left, left.unwrap_or(before), "{:?}", ask);
        Ok(after)
    }
}

fn lookup_says_it(story: &mut Story, time: Moment, left: Option<u32>) -> Agreement {
    story.finds(NEAR, time, left.map(|left| (NEAR, 1, left)))?;
    story.finds(FAR, time, left.map(|left| (NEAR, 2, left)))?;
    for before in LEFT_BEFORE {
        story.has_left(left, before, &Ask::Lookup { destination: FAR, time, left: before })?;
    }
    Ok(())
}

/// "A relay given a smallest remaining time refuses below it": what is equal goes on, and 0 is below nothing.
fn relay_refuses_below_the_smallest(story: &mut Story, time: Moment, left: Option<u32>) -> Agreement {
    for least_left in smallest_times(left.unwrap_or(0)) {
        let passed_up = left.filter(|left| *left >= least_left);
        for before in LEFT_BEFORE {
            let relay = Relay { least_left, left: before, ..relay(OTHER, FAR, 2, time) };
            let after = story.has_left(passed_up, before, &Ask::Relay(relay))?;
            assert!(passed_up.is_none() || after.next_hop == NEAR, "the route to FAR is over NEAR");
        }
    }
    Ok(())
}

/// It is handed back whatever time is named, and 0 is left.
fn payload_for_us_looks_at_none(story: &mut Story, time: Moment) -> Agreement {
    for least_left in smallest_times(0) {
        for before in LEFT_BEFORE {
            let relay = Relay { least_left, room: 0, left: before, ..relay(OTHER, OWN, 0, time) };
            let after = story.has_left(Some(0), before, &Ask::Relay(relay))?;
            assert_eq!((after.next_hop, after.place, after.length), (0, 9, 3));
        }
    }
    Ok(())
}

/// "Beacon forwarding uses the hops as before."
fn forwarding_names_none(story: &mut Story, time: Moment, is_usable: bool) -> Agreement {
    for code in BEACONS {
        let forward = Forward { time, ..story.forward(code, FAR, &[]) };
        story.is_answered(if is_usable { ACCEPTED } else { 11 }, Ask::Forward(forward))?;
    }
    Ok(())
}

/// Both rows are of the last time that they were heard of, which is another for each.
fn heard_again_has_all_of_it(check: &mut Check, start: Moment) -> Agreement {
    let mut story = Story::with_routes(check, start)?;
    let later = start + 299_999;
    story.hear(NEAR, 200, &[], later)?;
    story.finds(NEAR, later, Some((NEAR, 1, 300_000)))?;
    story.finds(FAR, later, Some((NEAR, 2, 1)))?;
    relay_refuses_below_the_smallest(&mut story, later, Some(1))?;
    relay_refuses_below_the_smallest(&mut story, later + 1, Some(0))?;
    story.finds(NEAR, later + 1, Some((NEAR, 1, 299_999)))?;
    story.hear(NEAR, 200, &[(FAR, 1, 200, OTHER, SENT)], later + 1)?;
    relay_refuses_below_the_smallest(&mut story, later + 1, Some(300_000))
}

fn withdrawn_has_none(check: &mut Check, start: Moment) -> Agreement {
    let mut story = Story::with_routes(check, start)?;
    story.change(Ask::Forget { unit: NEAR, time: start + 1 })?;
    for time in [start + 1, start + 2, start + 60_001] {
        lookup_says_it(&mut story, time, None)?;
        relay_refuses_below_the_smallest(&mut story, time, None)?;
    }
    Ok(())
}
