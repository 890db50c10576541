//! Cases of forwarding by name, of either kind of beacon: each refusal, by itself and where it comes before others, whose
//! beacon it is, the limits of delays, the copy, and the one pair that is kept for both kinds.

use crate::frames::kinds::*;
use crate::routes::calls::{Ask, Forward, TableLeft};
use crate::routes::drafts::longest_delay;
use crate::routes::refusals::frame_refusals;
use crate::routes::story::*;
use crate::routes::table::{Pair, Table};
use crate::shared::check::{Agreement, Check, Difference};
use crate::shared::moments::Moment;
use crate::shared::refusal::ACCEPTED;

pub fn check(check: &mut Check, start: Moment) -> Agreement {
    for code in BEACONS {
        let mut story = Story::with_routes(check, start)?;
        every_type(&mut story, code)?;
        frame_comes_first(&mut story, code)?;
        every_refusal(&mut story, code)?;
        every_delay(&mut story, code)?;
        copy_is_of_its_kind(&mut story, code)?;
        for other in BEACONS {
            one_pair_for_both(check, start, code, other)?;
        }
    }
    let mut story = Story::with_routes(check, start)?;
    original_source_of_a_beacon(&mut story)?;
    original_source_of_a_short_beacon(&mut story)
}

impl Story<'_> {
    fn answers(&mut self, status: u8, forward: Forward) -> Agreement {
        self.is_answered(status, Ask::Forward(forward))
    }

    /// It is accepted, and leaves its table to the calls after it.
    fn forwards(&mut self, forward: Forward) -> Result<TableLeft, Difference> {
        self.change(Ask::Forward(forward))
    }
}

/// Any type but those of beacons is 2; the other kind's is 1, because its length is another.
fn every_type(story: &mut Story, code: u8) -> Agreement {
    let good = story.forward(code, FAR, &[]);
    for other in (0..=0xFF).filter(|other| *other != code) {
        let mut changed = good.clone();
        changed.frame[0] = other;
        story.answers(if BEACONS.contains(&other) { 1 } else { 2 }, changed)?;
    }
    Ok(())
}

/// What is wrong with a frame comes before what is wrong with the network and the manager that are given with it.
fn frame_comes_first(story: &mut Story, code: u8) -> Agreement {
    let good = story.forward(code, FAR, &[("source", OWN.into())]);
    for (network, manager) in [(0, FAR), (NETWORK, 0), (NETWORK, 0xFFFF), (0, 0), (NETWORK + 1, 0)] {
        let wrong = Forward { network, manager, ..good.clone() };
        let with = |frame: &[u8]| Forward { frame: frame.to_vec(), ..wrong.clone() };
        let last = good.frame.len() - 1;
        let mut changed = good.frame.clone();
        changed[last] ^= 1;
        story.answers(1, with(&[]))?;
        story.answers(1, with(&[code; LONGEST_FRAME + 1]))?;
        story.answers(2, with(&[JOIN_REQUEST]))?;
        story.answers(1, with(&good.frame[..last]))?;
        story.answers(3, with(&changed))?;
        story.answers(4, Forward { time: wrong.time - 1, ..wrong })?;
    }
    Ok(())
}

fn every_refusal(story: &mut Story, code: u8) -> Agreement {
    // With this delay, any that is given is too much.
    let full = ("delay", longest_delay(code));
    let good = story.forward(code, FAR, &[full]);
    frame_refusals(story, &good.frame, |frame| Ask::Forward(Forward { frame, ..good.clone() }))?;
    let own = story.forward(code, FAR, &[full, ("source", OWN.into())]);
    let unknown = story.forward(code, OTHER, &[full]);
    let ended = story.forward(code, FAR, &[full, ("max hops", 1)]);
    let (nearer, farther) =
        (story.forward(code, FAR, &[full, ("hop", 0)]), story.forward(code, FAR, &[full, ("hop", 2)]));
    let (early, other) = (good.time - 1, NETWORK + 1);
    story.answers(6, Forward { network: other, time: early, delay: 1, room: 0, ..own })?;
    story.answers(15, Forward { network: other, time: early, delay: 1, room: 0, ..unknown.clone() })?;
    story.answers(8, Forward { time: early, delay: 1, room: 0, ..unknown.clone() })?;
    story.answers(11, Forward { delay: 1, room: 0, ..unknown })?;
    for not_ours in [ended, nearer, farther] {
        story.answers(16, Forward { delay: 1, room: 0, ..not_ours })?;
    }
    story.answers(4, Forward { delay: 1, room: 0, ..good.clone() })?;
    for room in 0..good.room {
        story.answers(5, Forward { room, ..good.clone() })?;
    }
    story.forwards(good.clone())?;
    story.answers(16, Forward { delay: 1, room: 0, ..good })
}

/// "4 if a delay sum passes 65,535", and in the other kind 2^32-1. A given delay is not cut before it is added.
fn every_delay(story: &mut Story, code: u8) -> Agreement {
    let longest = longest_delay(code);
    for delay in [0, 1, 5, longest / 2, longest - 5, longest - 1, longest] {
        let heard = story.forward(code, FAR, &[("sequence", 6), ("delay", delay)]);
        let rest = longest - delay;
        let near = [rest.saturating_sub(1), rest, rest.saturating_add(1)];
        let wide = [0, 1, 0xFFFE, 0xFFFF, 0x1_0000, 0x1_0001, 0x8000_0000, 0xFFFF_0000, 0xFFFF_FFFE, 0xFFFF_FFFF];
        for given in near.into_iter().chain(wide) {
            let status = if given <= rest { ACCEPTED } else { 4 };
            story.answers(status, Forward { delay: given, ..heard.clone() })?;
        }
    }
    Ok(())
}

/// "A forwarder keeps the kind it heard": this unit's copy has another source, hop and delay, and all else as it was. What
/// lies behind it in the buffer is left alone.
fn copy_is_of_its_kind(story: &mut Story, code: u8) -> Agreement {
    let heard = story.forward(code, FAR, &[("sequence", 7), ("delay", 1_000)]);
    let kind = kind_of_type(code);
    let mut numbers = numbers_in(kind.fields, &heard.frame);
    for (name, number) in [("source", OWN.into()), ("hop", 2), ("delay", 1_234)] {
        numbers[kind.place(name)] = number;
    }
    let length = if code == SHORT_BEACON { 19 } else { 34 };
    for room in [length, length + 1, 100] {
        let forward = Forward { delay: 234, room, ..heard.clone() };
        let left = story.check.is_answered(ACCEPTED, &story.table, &Ask::Forward(forward))?.left;
        assert_eq!((left.length as usize, &left.out[..length]), (length, &kind.assemble(&numbers, &[])[..]));
        assert_eq!(pair_in(&left), Some(Pair { origin: FAR, sequence: 7 }));
    }
    Ok(())
}

fn pair_in(left: &TableLeft) -> Option<Pair> {
    Table::from_bytes(&left.table).expect("the call left a table").pair
}

/// A pair that was forwarded is not forwarded again, as whichever kind it is heard, until there was another.
fn one_pair_for_both(check: &mut Check, start: Moment, first: u8, second: u8) -> Agreement {
    let mut story = Story::with_routes(check, start)?;
    let once = story.forward(first, FAR, &[]);
    let again = story.forward(second, FAR, &[]);
    let next = story.forward(second, FAR, &[("sequence", 6)]);
    let nearer = story.forward(second, NEAR, &[("hop", 0)]);
    story.forwards(once.clone())?;
    story.answers(16, again.clone())?;
    story.answers(16, once.clone())?;
    for other in [next, nearer] {
        story.forwards(other.clone())?;
        story.answers(16, other)?;
        story.forwards(again.clone())?;
        story.answers(16, once.clone())?;
    }
    Ok(())
}

/// It keeps its own, whoever the manager is.
fn original_source_of_a_beacon(story: &mut Story) -> Agreement {
    let of_far = story.forward(BEACON, FAR, &[]);
    for manager in [FAR, NEAR, OTHER, OWN, 1, 0xFFFE] {
        let forward = Forward { manager, ..of_far.clone() };
        let left = story.check.is_answered(ACCEPTED, &story.table, &Ask::Forward(forward))?.left;
        assert_eq!(pair_in(&left), Some(Pair { origin: FAR, sequence: 5 }));
    }
    for origin in [OTHER, OWN] {
        let unknown = story.forward(BEACON, origin, &[]);
        story.answers(11, Forward { manager: FAR, ..unknown })?;
    }
    for origin in [0, 0xFFFF] {
        let none = story.forward(BEACON, origin, &[]);
        story.answers(4, Forward { manager: FAR, ..none })?;
    }
    Ok(())
}

/// "The original source is the plan's manager": the same frame is another unit's beacon by another manager.
fn original_source_of_a_short_beacon(story: &mut Story) -> Agreement {
    let heard = story.forward(SHORT_BEACON, FAR, &[]);
    for (manager, status) in [(OWN, 11), (OTHER, 11), (NEAR, 16), (0, 4), (0xFFFF, 4)] {
        story.answers(status, Forward { manager, ..heard.clone() })?;
    }
    let nearer = story.forward(SHORT_BEACON, NEAR, &[("hop", 0)]);
    story.answers(16, Forward { manager: FAR, ..nearer.clone() })?;
    for (forward, origin) in [(heard, FAR), (nearer, NEAR)] {
        let left = story.forwards(forward)?;
        assert_eq!(pair_in(&left), Some(Pair { origin, sequence: 5 }));
    }
    Ok(())
}
