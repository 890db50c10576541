//! Random frames: each as it should be, and then damaged in one of several ways.

use crate::frames::check::*;
use crate::frames::drafts::{Draft, LIMITS};
use crate::frames::kinds::{Kind, LONGEST_FRAME};
use crate::shared::check::{Agreement, Check};

/// A frame as it should be, and then damaged in one of the ways below.
pub fn random_frame(check: &mut Check, kind: &'static Kind) -> Agreement {
    let draft = Draft::new(kind, &mut check.random);
    let frame = draft.frame();
    read(check, &frame, draft.numbers.len())?;
    step_somewhere(check, &frame)?;
    match check.random.below(7) {
        0 => other_rooms(check, &draft, &frame),
        1 => byte_changed(check, &draft, &frame),
        2 => cut(check, &draft, &frame),
        3 => extended(check, &draft, &frame),
        4 => numbers_changed(check, &draft),
        5 => numbers_missing_or_more(check, &draft),
        _ => part_changed(check, &draft),
    }
}

/// Room one short or more than enough.
fn other_rooms(check: &mut Check, draft: &Draft, frame: &[u8]) -> Agreement {
    let more = 1 + check.random.below(8);
    let places = draft.numbers.len();
    let places = check.random.one_of(&[places - 1, places + more]);
    read(check, frame, places)?;
    let room = check.random.one_of(&[frame.len() - 1, frame.len() + more]);
    write(check, &draft.numbers, &draft.part, room)
}

fn byte_changed(check: &mut Check, draft: &Draft, frame: &[u8]) -> Agreement {
    let mut changed = frame.to_vec();
    changed[check.random.below(frame.len())] ^= 1 + check.random.below(0xFF) as u8;
    read_damaged(check, draft.kind, &changed)
}

fn cut(check: &mut Check, draft: &Draft, frame: &[u8]) -> Agreement {
    let anywhere = check.random.below(frame.len());
    let length = check.random.one_of(&[frame.len() - 1, anywhere]);
    read_damaged(check, draft.kind, &frame[..length])
}

fn extended(check: &mut Check, draft: &Draft, frame: &[u8]) -> Agreement {
    let length = check.random.one_of(&[frame.len() + 1, LONGEST_FRAME, LONGEST_FRAME + 1, 300]);
    let mut extended = frame.to_vec();
    extended.resize(length, check.random.draw() as u8);
    read_damaged(check, draft.kind, &extended)
}

/// One number, perhaps the type, goes to a limit or anywhere, then another one too.
fn numbers_changed(check: &mut Check, draft: &Draft) -> Agreement {
    let mut changed = draft.clone();
    for _ in 0..2 {
        let limit = check.random.one_of(&LIMITS);
        let anything = check.random.draw() as u32;
        let place = check.random.below(changed.numbers.len());
        changed.numbers[place] = check.random.one_of(&[limit, limit, limit, anything]);
        write_damaged(check, &changed)?;
        let places = about(check, changed.numbers.len());
        read(check, &changed.frame(), places)?;
    }
    Ok(())
}

fn numbers_missing_or_more(check: &mut Check, draft: &Draft) -> Agreement {
    let mut changed = draft.clone();
    changed.numbers.push(check.random.draw() as u32);
    write_damaged(check, &changed)?;
    changed.numbers.truncate(check.random.below(draft.numbers.len()));
    write_damaged(check, &changed)?;
    changed.part.clear();
    write_damaged(check, &changed)
}

/// A byte of the part changed, then one more byte, then one too few.
fn part_changed(check: &mut Check, draft: &Draft) -> Agreement {
    let mut changed = draft.clone();
    if !changed.part.is_empty() {
        let place = check.random.below(changed.part.len());
        changed.part[place] = check.random.one_of(&[0, 1, 16, 17, 0xFE, 0xFF]);
        write_damaged(check, &changed)?;
    }
    changed.part.push(check.random.draw() as u8);
    write_damaged(check, &changed)?;
    changed.part.truncate(draft.part.len().saturating_sub(1));
    write_damaged(check, &changed)
}
