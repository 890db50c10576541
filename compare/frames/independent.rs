//! The independent implementation of frames: reading, writing and walking. The library is held to what these functions
//! answer.

use crate::frames::kinds::*;
use crate::shared::refusal::Refusal;
use std::ops::Range;

/// A frame that was read: its numbers, the type first, and where its variable part lies.
pub struct Reading {
    pub numbers: Vec<u32>,
    pub part: Range<usize>,
}

/// Reads a frame of any kind; `room` is how many numbers the caller has places for.
pub fn read(frame: &[u8], room: usize) -> Result<Reading, Refusal> {
    if frame.is_empty() || frame.len() > LONGEST_FRAME {
        return Err(Refusal::Length);
    }
    let kind = kind_of(u32::from(frame[0])).ok_or(Refusal::Type)?;
    // Tested first, because a frame this short may not even hold its count.
    if frame.len() < kind.frame_length(0) {
        return Err(Refusal::Length);
    }
    let numbers = numbers_in(kind.fields, frame);
    let part = kind.header_length()..frame.len() - CHECKSUM_LENGTH;
    if part.len() as u64 != kind.part_length(&numbers) {
        return Err(Refusal::Length);
    }
    if frame[part.end] != checksum(&frame[..part.end]) {
        return Err(Refusal::Checksum);
    }
    if !kind.keeps_rules(&numbers, &frame[part.clone()]) {
        return Err(Refusal::Field);
    }
    if numbers.len() > room {
        return Err(Refusal::Room);
    }
    Ok(Reading { numbers, part })
}

/// Reads a frame of the one kind that a call wants: any other type is refused before its length is looked at.
fn read_wanted(frame: &[u8], code: u8) -> Result<Reading, Refusal> {
    match frame.first() {
        Some(&first) if first != code && frame.len() <= LONGEST_FRAME => Err(Refusal::Type),
        _ => read(frame, usize::MAX),
    }
}

/// What a step over the entries of an update meets: the numbers of an entry and the position behind it. At the end
/// there are no numbers, and the position is 0.
pub struct Step {
    pub numbers: Vec<u32>,
    pub next: u32,
}

/// Steps over the entries of an update from a position, counted from 0; `room` is how many numbers the caller has
/// places for.
pub fn step(frame: &[u8], position: u32, room: usize) -> Result<Step, Refusal> {
    let reading = read_wanted(frame, ROUTING_UPDATE)?;
    match frame[reading.part].chunks(ENTRY_LENGTH).nth(position as usize) {
        None => Ok(Step { numbers: Vec::new(), next: 0 }),
        Some(_) if room < ENTRY.len() => Err(Refusal::Room),
        Some(entry) => Ok(Step { numbers: numbers_in(&ENTRY, entry), next: position + 1 }),
    }
}

/// Writes the frame with these numbers, the type first, and this variable part; `room` is how many bytes the caller
/// has place for. No numbers are an empty frame, and numbers past those of the kind are ignored.
pub fn write(numbers: &[u32], part: &[u8], room: usize) -> Result<Vec<u8>, Refusal> {
    let code = *numbers.first().ok_or(Refusal::Length)?;
    let kind = kind_of(code).ok_or(Refusal::Type)?;
    let length = kind.frame_length(part.len());
    if part.len() as u64 != kind.part_length(numbers) || length > LONGEST_FRAME {
        return Err(Refusal::Length);
    }
    let numbers = numbers.get(..kind.fields.len()).ok_or(Refusal::Field)?;
    if !kind.has_width_for(numbers) || !kind.keeps_rules(numbers, part) {
        return Err(Refusal::Field);
    }
    if length > room {
        return Err(Refusal::Room);
    }
    Ok(kind.assemble(numbers, part))
}
