//! Each refusal of a length, an address, a frame or a stranger, by itself and where it comes before others.

use crate::frames::bodies::{mended, seal};
use crate::frames::drafts::Draft;
use crate::frames::kinds::{ELECTION, KINDS};
use crate::poll::calls::Ask;
use crate::poll::drafts::election;
use crate::poll::election::Poll;
use crate::poll::story::*;
use crate::shared::check::{Agreement, Check};
use crate::shared::refusal::ACCEPTED;

pub fn check(check: &mut Check) -> Agreement {
    fresh_refusals(check)?;
    hear_refusals(check)
}

/// A wrong length comes before a bad address.
fn fresh_refusals(check: &mut Check) -> Agreement {
    for own in [OWN, 0, 0xFFFF] {
        let ask = Ask::Fresh { own, priority: 7 };
        for length in [0, 1, Poll::PLACE_LENGTH, Poll::LENGTH - 1, Poll::LENGTH + 1, Poll::LENGTH + 0x100] {
            let buffer = check.random.bytes(length);
            check.is_answered(14, &buffer, &ask)?;
        }
        let buffer = check.random.bytes(Poll::LENGTH);
        check.is_answered(if own == OWN { ACCEPTED } else { 4 }, &buffer, &ask)?;
    }
    Ok(())
}

/// On a full poll, so that each frame could also be a stranger's, which comes last.
fn hear_refusals(check: &mut Check) -> Agreement {
    let mut story = Story::full(check, 3)?;
    let story = &mut story;
    let good = election(LAST + 1, 200);
    for bytes in [Vec::new(), vec![0x41; 256], vec![ELECTION; 256], vec![ELECTION; 5 + 0x100]] {
        story.is_answered(1, Ask::Hear { frame: bytes })?;
    }
    other_types(story, &good)?;
    story.is_answered(1, Ask::Hear { frame: vec![ELECTION] })?;
    for length in [2, 4, 6, 255] {
        let mut frame = good.clone();
        frame.resize(length, 0);
        story.is_answered(1, Ask::Hear { frame: mended(&frame) })?;
        story.is_answered(1, Ask::Hear { frame })?;
    }
    for (unit, refusal) in [(0, 4), (0xFFFF, 4), (OWN, 6), (LAST + 1, 12), (LAST, ACCEPTED)] {
        let mut frame = election(unit, 200);
        frame[4] ^= 1;
        story.is_answered(3, Ask::Hear { frame: frame.clone() })?;
        seal(&mut frame);
        story.is_answered(refusal, Ask::Hear { frame })?;
    }
    Ok(())
}

/// Known and unknown, of their own length and of another one.
fn other_types(story: &mut Story, good: &[u8]) -> Agreement {
    for code in (0..=0xFF).filter(|code| *code != ELECTION) {
        let mut frame = good.to_vec();
        frame[0] = code;
        for frame in [vec![code], vec![code; 255], mended(&frame), frame] {
            story.is_answered(2, Ask::Hear { frame })?;
        }
    }
    for kind in KINDS.iter().filter(|kind| kind.code != ELECTION) {
        let frame = Draft::new(kind, &mut story.check.random).frame();
        story.is_answered(2, Ask::Hear { frame })?;
    }
    Ok(())
}
