//! The independent implementation of the clock's step, from the paper's drift, by either kind of beacon. The library is
//! held to what it answers.

use crate::frames::independent;
use crate::frames::kinds::{kind_of_type, BEACONS, LONGEST_FRAME};
use crate::shared::moments::Moment;
use crate::shared::refusal::Refusal;

/// The offset, modulo 2^32, after a beacon that came in at this local time, for a unit of this network.
pub fn step(offset: u32, local_time: Moment, network: u16, frame: &[u8]) -> Result<u32, Refusal> {
    let beacon = beacon_in(frame)?;
    if network == 0 {
        return Err(Refusal::Field);
    }
    if beacon.network != u32::from(network) {
        return Err(Refusal::Network);
    }
    let (here, there) = (local_time + offset, beacon.original_time + beacon.delay);
    let drift = here.ahead_of(there);
    let correction = match drift.unsigned_abs() {
        0..=50 => 0,
        51..=100 => drift / 2,
        _ => drift,
    };
    Ok(offset.wrapping_sub(correction as u32))
}

/// What the clock needs of a beacon.
struct Heard {
    network: u32,
    original_time: Moment,
    delay: u32,
}

/// A frame of another known type is refused by its type, whatever its length.
fn beacon_in(frame: &[u8]) -> Result<Heard, Refusal> {
    if frame.len() <= LONGEST_FRAME && frame.first().map_or(false, |code| !BEACONS.contains(code)) {
        return Err(Refusal::Type);
    }
    let reading = independent::read(frame, usize::MAX)?;
    let kind = kind_of_type(frame[0]);
    let number = |name: &str| reading.numbers[kind.place(name)];
    let (original_time, delay) = (Moment(number("original time")), number("delay"));
    Ok(Heard { network: number("network"), original_time, delay })
}
