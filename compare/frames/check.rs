//! The comparison of frames: every limit of the paper in turn, then random frames, whole and damaged, read, written
//! and walked.

use crate::frames::bodies::mended;
use crate::frames::calls::{Entry, Read, ReadLeft, Write};
use crate::frames::drafts::Draft;
use crate::frames::kinds::{kind_of_type, Kind, ENTRY, KINDS};
use crate::frames::{damaged, limits};
use crate::shared::check::{Agreement, Answer, Check};
use crate::shared::lending::Empty;
use crate::shared::progress::Progress;
use crate::Options;

/// Positions past the end of every update, some of them within if only their low bytes are looked at.
pub const FAR_POSITIONS: [u32; 8] = [25, 254, 255, 0x100, 0x101, 0x1_0000, 0x8000_0000, 0xFFFF_FFFF];

pub fn check(check: &mut Check, options: &Options, progress: &mut Progress) -> Agreement {
    limits::check(check)?;
    for (done, kind) in (0..options.frames).zip(KINDS.iter().cycle()) {
        damaged::random_frame(check, kind)?;
        progress.step(done + 1, options.frames);
    }
    Ok(())
}

/// Reads with so many places for the numbers; what is accepted is also written again.
pub fn read(check: &mut Check, frame: &[u8], places: usize) -> Agreement {
    let answer = check.put(&Read { frame, places })?;
    write_again(check, frame, &answer)
}

pub fn read_lending(check: &mut Check, frame: &[u8], places: usize, empty: Empty) -> Agreement {
    let answer = check.put_lending(&Read { frame, places }, empty)?;
    write_again(check, frame, &answer)
}

/// Writing what was read gives the same bytes.
fn write_again(check: &mut Check, frame: &[u8], read: &Answer<ReadLeft>) -> Agreement {
    if !read.is_accepted() {
        return Ok(());
    }
    let ReadLeft { fields, part_place, part_length } = &read.left;
    let fields = &fields[..kind_of_type(frame[0]).fields.len()];
    let part = &frame[*part_place as usize..][..*part_length as usize];
    let answer = check.put(&Write { fields, part, room: frame.len() })?;
    assert!(answer.is_accepted() && answer.left.out == frame, "what was read is written as it was");
    Ok(())
}

/// Writes with so many bytes of room.
pub fn write(check: &mut Check, fields: &[u32], part: &[u8], room: usize) -> Agreement {
    check.put(&Write { fields, part, room }).map(drop)
}

/// Steps over the entries from a position, with so many places for the numbers of one.
pub fn step(check: &mut Check, frame: &[u8], position: u32, places: usize) -> Agreement {
    check.put(&Entry { frame, position, places }).map(drop)
}

/// Steps from a position within most updates, or from a far one.
pub fn step_somewhere(check: &mut Check, frame: &[u8]) -> Agreement {
    let far = check.random.one_of(&FAR_POSITIONS);
    let near = check.random.within(0, 24);
    let position = check.random.one_of(&[0, near, near, far]);
    let places = about(check, ENTRY.len());
    step(check, frame, position, places)
}

/// Reads and writes what is drafted, within the rules or not.
pub fn read_and_write(check: &mut Check, draft: &Draft) -> Agreement {
    let frame = draft.frame();
    read(check, &frame, draft.numbers.len())?;
    write(check, &draft.numbers, &draft.part, frame.len())
}

/// Reads damaged bytes, and steps over their entries, as they are and with their checksum mended.
pub fn read_damaged(check: &mut Check, kind: &Kind, frame: &[u8]) -> Agreement {
    let places = about(check, kind.fields.len());
    for bytes in [frame, &mended(frame)] {
        read(check, bytes, places)?;
        step_somewhere(check, bytes)?;
    }
    Ok(())
}

pub fn write_damaged(check: &mut Check, draft: &Draft) -> Agreement {
    let room = about(check, draft.frame_length());
    write(check, &draft.numbers, &draft.part, room)
}

/// The length of an output buffer: mostly what is needed, at times more or less, so that a buffer too short also
/// comes together with other faults.
pub fn about(check: &mut Check, needed: usize) -> usize {
    match check.random.below(8) {
        0 => needed - 1,
        1 => check.random.below(needed),
        2 => needed + 1 + check.random.below(8),
        _ => needed,
    }
}
