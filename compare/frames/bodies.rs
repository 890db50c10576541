//! What a call that wants one kind of frame asks of any frame before it reads the fields: its type, its length and its
//! checksum. Nothing is copied: the fields are then read where they stand in the caller's bytes.

use crate::frames::kinds::{checksum, LONGEST_FRAME};
use crate::shared::refusal::Refusal;

/// All of a frame but its checksum, if it has the type that is wanted. `shortest` is the length of such a frame without
/// a variable part, and `part_length` reads how much longer this one has to be; what it reads lies within the shortest.
#[inline(always)]
pub fn body_of(
    frame: &[u8],
    code: u8,
    shortest: usize,
    part_length: impl Fn(&[u8]) -> usize,
) -> Result<&[u8], Refusal> {
    if frame.is_empty() || frame.len() > LONGEST_FRAME {
        return Err(Refusal::Length);
    }
    if frame[0] != code {
        return Err(Refusal::Type);
    }
    if frame.len() < shortest {
        return Err(Refusal::Length);
    }
    let length = shortest + part_length(frame);
    if frame.len() != length {
        return Err(Refusal::Length);
    }
    let (body, sum) = frame.split_at(length - 1);
    match checksum(body) == sum[0] {
        true => Ok(body),
        false => Err(Refusal::Checksum),
    }
}

/// Puts the checksum into the last byte.
pub fn seal(frame: &mut [u8]) {
    if let Some((last, before)) = frame.split_last_mut() {
        *last = checksum(before);
    }
}

/// Damaged bytes with their checksum mended.
pub fn mended(frame: &[u8]) -> Vec<u8> {
    let mut frame = frame.to_vec();
    seal(&mut frame);
    frame
}
