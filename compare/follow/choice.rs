//! The independent implementation of following, from request 112 of document 02 alone: which of two frames that were
//! heard in one slot a unit follows. The library is held to what it answers.

use crate::frames::beacons::Beacon;
use crate::shared::refusal::Refusal;
use std::cmp::Reverse;

/// A frame, and how well it was heard.
#[derive(Clone, Copy)]
pub struct Heard<'a> {
    pub frame: &'a [u8],
    pub quality: u8,
}

/// The one of two frames to follow. The library answers with the number alone.
#[derive(Clone, Copy, Debug, PartialEq, Eq)]
pub enum Which {
    First = 0,
    Second = 1,
}

impl Which {
    pub fn number(self) -> u8 {
        self as u8
    }
}

/// The one that a unit of this network follows. If neither will do, the refusal is the first's own.
#[inline(never)]
pub fn follow(first: Heard, second: Heard, network: u16) -> Result<Which, Refusal> {
    match (hop_of_ours(first.frame, network), hop_of_ours(second.frame, network)) {
        (Ok(hop), Ok(second_hop)) => match (second_hop, Reverse(second.quality)) < (hop, Reverse(first.quality)) {
            true => Ok(Which::Second),
            false => Ok(Which::First),
        },
        (Ok(_), Err(_)) => Ok(Which::First),
        (Err(_), Ok(_)) => Ok(Which::Second),
        (Err(refusal), Err(_)) => Err(refusal),
    }
}

/// The hop of a readable beacon of this network.
fn hop_of_ours(frame: &[u8], network: u16) -> Result<u8, Refusal> {
    let beacon = Beacon::read(frame)?;
    if network == 0 {
        return Err(Refusal::Field);
    }
    if beacon.network != network {
        return Err(Refusal::Network);
    }
    Ok(beacon.hop)
}
