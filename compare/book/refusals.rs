//! Each refusal of each call on a book, by itself and where it comes before others.

use crate::book::calls::Ask;
use crate::book::drafts::{join_request, slot_request};
use crate::book::members::RESPONSE_LENGTH;
use crate::book::story::*;
use crate::frames::bodies::seal;
use crate::frames::drafts::Draft;
use crate::frames::kinds::{kind_of_type, BEACONS};
use crate::shared::check::{Agreement, Check};
use crate::shared::moments::Moment;

/// Where several refusals apply, the first is given.
pub fn every_refusal(check: &mut Check, start: Moment) -> Agreement {
    let mut story = Story::begin(check, site(3, 2, 4), start)?;
    story.joins(FIRST, 2, start, &[5, 7, 8])?;
    join_refusals(&mut story)?;
    slot_request_refusals(&mut story)?;
    unit_refusals(&mut story)?;
    schedule_refusals(&mut story)
}

/// What both calls that take a frame refuse of it. The sender stands behind the type.
fn frame_refusals(story: &mut Story, frame: &[u8], ask: impl Fn(Vec<u8>) -> Ask) -> Agreement {
    let last = frame.len() - 1;
    story.is_answered(1, ask(Vec::new()))?;
    story.is_answered(1, ask(vec![0x41; 256]))?;
    // An unknown type, and a known one that the call does not want, both of a wrong length.
    story.is_answered(2, ask(vec![0x41; 255]))?;
    story.is_answered(2, ask(vec![0x22]))?;
    for code in BEACONS {
        let beacon = Draft::new(kind_of_type(code), &mut story.check.random).frame();
        story.is_answered(2, ask(beacon))?;
    }
    story.is_answered(1, ask(frame[..last].to_vec()))?;
    story.is_answered(1, ask([frame, &[0]].concat()))?;
    let mut changed = frame.to_vec();
    changed[last] ^= 1;
    story.is_answered(3, ask(changed.clone()))?;
    for (unit, number) in [(0, 4), (0xFFFF, 4), (MANAGER, 6)] {
        changed[1..3].copy_from_slice(&unit.to_le_bytes());
        seal(&mut changed);
        story.is_answered(number, ask(changed.clone()))?;
    }
    Ok(())
}

fn join_refusals(story: &mut Story) -> Agreement {
    let (time, room) = (story.time, 3 * RESPONSE_LENGTH);
    let ask = |frame: Vec<u8>, time, room| Ask::Join { frame, time, room };
    let (good, stranger) = (join_request(FIRST, 7, NETWORK, 4), join_request(SECOND, 7, NETWORK, 4));
    story.needs_a_book(ask(good.clone(), time, room))?;
    story.is_accepted(ask(join_request(FIRST, 7, 0, 4), time, room))?;
    frame_refusals(story, &join_request(SECOND, 7, NETWORK + 1, 4), |frame| ask(frame, time - 1, 0))?;
    story.is_answered(15, ask(join_request(SECOND, 7, NETWORK + 1, 4), time - 1, 0))?;
    story.is_answered(8, ask(stranger.clone(), time - 1, 0))?;
    story.is_answered(12, ask(stranger, time, 0))?;
    story.is_answered(5, ask(good.clone(), time, room - 1))?;
    story.is_answered(5, ask(good, time, 0))
}

fn slot_request_refusals(story: &mut Story) -> Agreement {
    // It holds two data slots, and a third is free.
    let (time, room) = (story.time, 4 * RESPONSE_LENGTH);
    let ask = |frame: Vec<u8>, time, room| Ask::SlotRequest { frame, time, room };
    let (good, stranger) = (slot_request(FIRST, 4, 7, 7), slot_request(SECOND, 4, 7, 7));
    story.needs_a_book(ask(good.clone(), time, room))?;
    frame_refusals(story, &stranger, |frame| ask(frame, time - 1, 0))?;
    story.is_answered(8, ask(stranger.clone(), time - 1, 0))?;
    story.is_answered(13, ask(stranger, time, 0))?;
    story.is_answered(5, ask(good, time, room - 1))
}

/// Of hearing and leaving.
fn unit_refusals(story: &mut Story) -> Agreement {
    let start = story.time;
    let calls: [fn(u16, Moment) -> Ask; 2] =
        [|unit, time| Ask::Heard { unit, time }, |unit, time| Ask::Leave { unit, time }];
    for call in calls {
        story.needs_a_book(call(FIRST, start))?;
        story.is_answered(4, call(0, start - 1))?;
        story.is_answered(4, call(0xFFFF, start - 1))?;
        story.is_answered(8, call(SECOND, start - 1))?;
        story.is_answered(8, call(MANAGER, start - 1))?;
        story.is_answered(13, call(SECOND, start))?;
    }
    story.is_accepted(Ask::Heard { unit: MANAGER, time: start })?;
    story.is_answered(13, Ask::Leave { unit: MANAGER, time: start })
}

fn schedule_refusals(story: &mut Story) -> Agreement {
    let ask = |unit, hop, time, room| Ask::Schedule { unit, hop, time, room };
    // Active: 4 beacon slots, 2 of control, 4 of data, 2 of discovery.
    let (time, room) = (story.time, 40);
    for hop in [1, 2, 3] {
        story.needs_a_book(ask(FIRST, hop, time, room))?;
    }
    story.needs_a_book(ask(MANAGER, 0, time, room))?;
    story.is_answered(4, ask(0, 0, time - 1, 0))?;
    story.is_answered(4, ask(0xFFFF, 0, time - 1, 0))?;
    story.is_answered(8, ask(SECOND, 0, time - 1, 0))?;
    // Of some a byte or two say a hop that the unit may have.
    for hop in [0, 4, 255, 256, 257, 0x1_0001, 0x100_0003, u32::MAX] {
        story.is_answered(14, ask(FIRST, hop, time, 0))?;
        story.is_answered(14, ask(SECOND, hop, time, 0))?;
    }
    for hop in [1, 3, 4, 255, 256, 257, 0x1_0000, 0x100_0000, u32::MAX] {
        story.is_answered(14, ask(MANAGER, hop, time, 0))?;
    }
    story.is_answered(13, ask(SECOND, 1, time, 0))?;
    story.is_answered(5, ask(FIRST, 1, time, room - 1))?;
    story.is_answered(5, ask(MANAGER, 0, time, 0))
}
