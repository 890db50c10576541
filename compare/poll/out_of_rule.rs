//! Each way in which bytes are no poll within rule.

use crate::poll::calls::Ask;
use crate::poll::drafts::*;
use crate::poll::election::{Poll, MOST_OTHERS};
use crate::poll::story::*;
use crate::shared::check::{Agreement, Check};
use crate::shared::refusal::{Refusal, ACCEPTED};

pub fn check(check: &mut Check) -> Agreement {
    for others in [0, 1, 2, 3, MOST_OTHERS - 1, MOST_OTHERS] {
        every_way(check, others)?;
    }
    Ok(())
}

/// A way in which bytes are no poll, in words; how many others a poll has to have for it; and the change, which is
/// given how many others there are.
type Way = (&'static str, usize, fn(&mut Vec<u8>, usize));

const WAYS: [Way; 25] = [
    ("no bytes", 0, |poll, _| poll.clear()),
    ("its own place alone", 0, |poll, _| poll.truncate(Poll::PLACE_LENGTH)),
    ("a place missing", 0, |poll, _| poll.truncate(Poll::LENGTH - Poll::PLACE_LENGTH)),
    ("a byte missing", 0, |poll, _| poll.truncate(Poll::LENGTH - 1)),
    ("a byte too many", 0, |poll, _| poll.push(0)),
    ("256 bytes too many", 0, |poll, _| poll.resize(Poll::LENGTH + 0x100, 0)),
    ("65,536 bytes too many", 0, |poll, _| poll.resize(Poll::LENGTH + 0x1_0000, 0)),
    ("an own unit of 0", 0, |poll, _| set_own(poll, 0)),
    ("an own unit that is every unit", 0, |poll, _| set_own(poll, 0xFFFF)),
    ("nothing but zeros", 0, |poll, _| poll.fill(0)),
    ("a last unit that is every unit", 1, |poll, others| set(poll, others - 1, 0xFFFF)),
    ("every unit behind the others", 0, |poll, others| set_past(poll, others, 0xFFFF)),
    ("oneself first", 1, |poll, _| set(poll, 0, OWN)),
    ("oneself last", 1, |poll, _| set_own(poll, LAST_OF_ALL)),
    ("oneself among the others", 3, |poll, _| set_own(poll, FIRST + 2)),
    ("two units descending", 3, |poll, _| set(poll, 0, FIRST + 3)),
    ("the last two units descending", 2, |poll, others| set(poll, others - 1, FIRST - 1)),
    ("two units equal", 3, |poll, _| set(poll, 0, FIRST + 2)),
    ("the last two units equal", 2, |poll, others| set(poll, others - 2, LAST_OF_ALL)),
    ("a gap in front", 2, |poll, _| clear(poll, 0)),
    ("a gap before the last", 2, |poll, others| clear(poll, others - 2)),
    ("a unit of 0 with a priority", 1, |poll, others| set(poll, others - 1, 0)),
    ("a priority behind the others", 0, |poll, others| set_byte_past(poll, others, 2)),
    ("a priority in the last place", 0, |poll, others| set_byte_past(poll, others.max(MOST_OTHERS - 1), 2)),
    ("a unit in the last place", 0, |poll, others| set_byte_past(poll, others.max(MOST_OTHERS - 1), 1)),
];

/// The last unit of each poll that is put out of rule.
const LAST_OF_ALL: u16 = LAST + 1;

/// Each way in which a poll of so many others can be put out of rule: hearing and naming the winner refuse it before
/// anything else, and a fresh poll takes any bytes of its length.
fn every_way(check: &mut Check, others: usize) -> Agreement {
    let mut heard = others_from(FIRST, others, 3);
    if let Some(last) = heard.last_mut() {
        last.0 = LAST_OF_ALL;
    }
    let whole = poll_bytes((OWN, 3), &heard);
    check.is_answered(ACCEPTED, &whole, &Ask::Winner { winner: 0 })?;
    for (words, _, change) in WAYS.iter().filter(|(_, least, _)| others >= *least) {
        let mut poll = whole.clone();
        change(&mut poll, others);
        // Behind 24 others there is no place to change.
        if poll != whole {
            is_refused(check, &poll, words)?;
        }
    }
    Ok(())
}

fn is_refused(check: &mut Check, poll: &[u8], words: &str) -> Agreement {
    assert_eq!(Poll::from_bytes(poll), Err(Refusal::OutOfRule), "{}", words);
    for frame in
        [election(LAST_OF_ALL, 9), election(LOWER, 9), election(OWN, 9), election(0, 9), vec![0x41], Vec::new()]
    {
        check.is_answered(14, poll, &Ask::Hear { frame })?;
    }
    for winner in BEFORE {
        check.is_answered(14, poll, &Ask::Winner { winner })?;
    }
    let status = if poll.len() == Poll::LENGTH { ACCEPTED } else { 14 };
    check.is_answered(status, poll, &Ask::Fresh { own: OWN, priority: 3 }).map(drop)
}

fn set_own(poll: &mut [u8], unit: u16) {
    poll[..2].copy_from_slice(&unit.to_le_bytes());
}

/// Where the place of another begins.
fn start_of(place: usize) -> usize {
    Poll::PLACE_LENGTH * (1 + place)
}

fn set(poll: &mut [u8], place: usize, unit: u16) {
    let start = start_of(place);
    poll[start..start + 2].copy_from_slice(&unit.to_le_bytes());
}

fn clear(poll: &mut [u8], place: usize) {
    let start = start_of(place);
    poll[start..start + Poll::PLACE_LENGTH].fill(0);
}

/// Behind the others, if there is a place.
fn set_past(poll: &mut [u8], place: usize, unit: u16) {
    if place < MOST_OTHERS {
        set(poll, place, unit);
    }
}

/// One byte of a place behind the others, if there is one.
fn set_byte_past(poll: &mut [u8], place: usize, byte: usize) {
    if place < MOST_OTHERS {
        poll[start_of(place) + byte] = 1;
    }
}
