//! Each refusal of each call on a table but forwarding, by itself and where it comes before others.

use crate::frames::bodies::seal;
use crate::frames::kinds::BEACONS;
use crate::routes::calls::{Ask, Relay};
use crate::routes::drafts::{beacon, update};
use crate::routes::story::*;
use crate::routes::table::SHORTEST_UPDATE;
use crate::shared::check::{Agreement, Check};
use crate::shared::moments::Moment;

pub fn every_refusal(check: &mut Check, start: Moment) -> Agreement {
    let mut story = Story::with_routes(check, start)?;
    table_refusals(&mut story)?;
    merge_refusals(&mut story)?;
    relay_refusals(&mut story)
}

/// Of the calls that take no frame.
fn table_refusals(story: &mut Story) -> Agreement {
    let time = story.start;
    story.needs_a_table(Ask::Fresh { own: OWN, time })?;
    story.is_answered(4, Ask::Fresh { own: 0xFFFF, time })?;
    story.needs_a_table(lookup(FAR, time))?;
    story.is_answered(4, lookup(0, time))?;
    story.is_answered(8, lookup(FAR, time - 1))?;
    story.is_answered(11, lookup(OTHER, time))?;
    story.is_answered(11, lookup(OWN, time))?;
    story.needs_a_table(Ask::Forget { unit: OTHER, time })?;
    story.is_answered(4, Ask::Forget { unit: 0, time })?;
    story.is_answered(6, Ask::Forget { unit: OWN, time })?;
    story.is_answered(8, Ask::Forget { unit: FAR, time: time - 1 })?;
    let room = SHORTEST_UPDATE + 20;
    story.needs_a_table(Ask::Page { page: 0, time, room })?;
    story.is_answered(8, Ask::Page { page: 1, time: time - 1, room })?;
    story.is_answered(14, Ask::Page { page: 1, time, room: 0 })?;
    story.is_answered(5, Ask::Page { page: 0, time, room: room - 1 })
}

/// What any call that takes a frame refuses of it.
pub fn frame_refusals(story: &mut Story, frame: &[u8], ask: impl Fn(Vec<u8>) -> Ask) -> Agreement {
    story.needs_a_table(ask(frame.to_vec()))?;
    story.is_answered(1, ask(Vec::new()))?;
    story.is_answered(1, ask(frame[..frame.len() - 1].to_vec()))?;
    story.is_answered(1, ask(vec![0x41; 256]))?;
    // A known type that the call does not want, of a length that it never has.
    story.is_answered(2, ask(vec![0x21]))?;
    let mut changed = frame.to_vec();
    let last = frame.len() - 1;
    changed[last] ^= 1;
    story.is_answered(3, ask(changed.clone()))?;
    // The first address after the type is 0 in data, updates and short beacons, and not 0xFFFF in other beacons.
    changed[1..3].fill(0);
    seal(&mut changed);
    story.is_answered(4, ask(changed))
}

/// A beacon of either kind is not one of the frames that a call wants.
fn beacon_refusals(story: &mut Story, ask: impl Fn(Vec<u8>) -> Ask) -> Agreement {
    for code in BEACONS {
        let frame = beacon(code, &[], &mut story.check.random);
        story.is_answered(2, ask(frame))?;
    }
    Ok(())
}

fn merge_refusals(story: &mut Story) -> Agreement {
    let start = story.start;
    let good = update(NEAR, SENT, &[(FAR, 1, 200, OTHER, SENT)]);
    frame_refusals(story, &good, |frame| Ask::Merge { frame, quality: 40, time: start })?;
    beacon_refusals(story, |frame| Ask::Merge { frame, quality: 40, time: start })?;
    story.is_answered(6, Ask::Merge { frame: update(OWN, SENT, &[]), quality: 39, time: start - 1 })?;
    story.is_answered(8, Ask::Merge { frame: good.clone(), quality: 39, time: start - 1 })?;
    story.is_answered(9, Ask::Merge { frame: good, quality: 39, time: start })
}

fn relay_refusals(story: &mut Story) -> Agreement {
    let (time, early) = (story.start, story.start - 1);
    let good = relay(OTHER, FAR, 2, time);
    frame_refusals(story, &good.frame, |frame| Ask::Relay(Relay { frame, ..good.clone() }))?;
    beacon_refusals(story, |frame| Ask::Relay(Relay { frame, ..good.clone() }))?;
    story.needs_a_table(Ask::Relay(Relay { room: 0, ..relay(OTHER, OWN, 0, time) }))?;
    // Every route has less left than the largest number: that is 11 as well, and comes where 11 does.
    for least_left in [0, u32::MAX] {
        let named = |relay| Ask::Relay(Relay { least_left, ..relay });
        story.is_answered(6, named(relay(OWN, FAR, 2, early)))?;
        story.is_answered(8, named(relay(OTHER, FAR, 1, early)))?;
        story.is_answered(10, named(Relay { room: 0, ..relay(NEAR, OTHER, 1, time) }))?;
        story.is_answered(10, named(relay(NEAR, FAR, 1, time)))?;
        story.is_answered(10, named(relay(NEAR, FAR, 0, time)))?;
        story.is_answered(11, named(Relay { room: 0, ..relay(NEAR, OTHER, 2, time) }))?;
    }
    let short = Relay { room: good.room - 1, ..good };
    story.is_answered(11, Ask::Relay(Relay { least_left: 300_001, ..short.clone() }))?;
    story.is_answered(5, Ask::Relay(Relay { least_left: 300_000, ..short.clone() }))?;
    story.is_answered(5, Ask::Relay(short))
}
