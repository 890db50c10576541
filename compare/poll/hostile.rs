//! Hostile buffers for the calls on a poll: every length, every byte of a poll and of a message changed to every other,
//! and every kind of frame.

use crate::frames::bodies::mended;
use crate::frames::drafts::Draft;
use crate::frames::kinds::{KINDS, LONGEST_FRAME};
use crate::poll::calls::Ask;
use crate::poll::drafts::*;
use crate::poll::election::{Poll, MOST_OTHERS};
use crate::shared::check::{Agreement, Check};
use crate::shared::hostile::{every_buffer, every_length_of_each};

/// Its high byte alone makes it another than the first.
const OWN: Said = (0x0202, 100);
const FIRST: u16 = 0x0102;

pub fn check(check: &mut Check) -> Agreement {
    for count in [0, 1, 12, MOST_OTHERS] {
        let heard = others_from(FIRST, count, OWN.1);
        let poll = poll_bytes(OWN, &heard);
        every_length(check, &poll)?;
        every_byte_of_the_poll(check, &poll)?;
        every_byte_of_the_message(check, &poll)?;
        other_frames(check, &poll)?;
    }
    Ok(())
}

/// A message that a poll with an other in it knows, so that even a full one hears it; and one of a stranger.
fn messages() -> [Vec<u8>; 2] {
    [election(FIRST, 101), election(FIRST + 1, 101)]
}

fn every_length(check: &mut Check, poll: &[u8]) -> Agreement {
    let [known, stranger] = messages();
    every_buffer(check, poll, &Ask::Fresh { own: OWN.0, priority: OWN.1 })?;
    every_buffer(check, poll, &Ask::Hear { frame: known })?;
    every_length_of_each(check, poll, &Ask::Hear { frame: stranger })?;
    every_length_of_each(check, poll, &Ask::Fresh { own: 0, priority: OWN.1 })?;
    for winner in BEFORE {
        every_buffer(check, poll, &Ask::Winner { winner })?;
    }
    Ok(())
}

/// What is asked of a poll with a byte changed: each call, and the messages of one that may be known and of a stranger.
fn every_byte_of_the_poll(check: &mut Check, poll: &[u8]) -> Agreement {
    let [known, stranger] = messages().map(|frame| Ask::Hear { frame });
    let fresh = Ask::Fresh { own: OWN.0, priority: OWN.1 };
    for place in 0..Poll::LENGTH {
        let mut changed = poll.to_vec();
        for byte in 0..=0xFF {
            changed[place] = byte;
            let winner = check.random.one_of(&BEFORE);
            check.ask(&changed, &Ask::Winner { winner })?;
            check.ask(&changed, &known)?;
            check.ask(&changed, &stranger)?;
        }
        check.ask(&changed, &fresh)?;
    }
    Ok(())
}

fn every_byte_of_the_message(check: &mut Check, poll: &[u8]) -> Agreement {
    for good in messages() {
        for place in 0..good.len() {
            for byte in 0..=0xFF {
                let mut changed = good.clone();
                changed[place] = byte;
                damaged(check, poll, &changed)?;
            }
        }
    }
    Ok(())
}

/// Every kind of frame, and messages of lengths that are right if only their low bytes are looked at.
fn other_frames(check: &mut Check, poll: &[u8]) -> Agreement {
    for kind in &KINDS {
        let frame = Draft::new(kind, &mut check.random).frame();
        damaged(check, poll, &frame)?;
    }
    for good in messages() {
        for length in [LONGEST_FRAME, LONGEST_FRAME + 1, good.len() + 0x100, good.len() + 0x1_0000] {
            let mut frame = good.clone();
            frame.resize(length, 0);
            damaged(check, poll, &frame)?;
        }
    }
    Ok(())
}

/// Bytes as they are and with their checksum mended.
fn damaged(check: &mut Check, poll: &[u8], frame: &[u8]) -> Agreement {
    for frame in [frame.to_vec(), mended(frame)] {
        check.ask(poll, &Ask::Hear { frame })?;
    }
    Ok(())
}
