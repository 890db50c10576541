//! Election messages and polls that the checks make up.

use crate::frames::kinds::{kind_of_type, ELECTION};
use crate::poll::election::{Message, Poll, MOST_OTHERS};

/// What the place for the winner holds before a call: what is an address, and what is none.
pub const BEFORE: [u16; 5] = [0, 1, 0xA5C3, 0xFFFE, 0xFFFF];

/// What an election message says: a unit and its priority.
pub type Said = (u16, u8);

pub fn election(unit: u16, priority: u8) -> Vec<u8> {
    kind_of_type(ELECTION).assemble(&[ELECTION.into(), unit.into(), priority.into()], &[])
}

/// The poll of a unit that heard these others, in this order in its places, whether that is within rule or not.
pub fn poll_bytes((own, priority): Said, heard: &[Said]) -> Vec<u8> {
    let mut others = [Message::NONE; MOST_OTHERS];
    for (other, &(unit, priority)) in others.iter_mut().zip(heard) {
        *other = Message { unit, priority };
    }
    let mut bytes = vec![0; Poll::LENGTH];
    Poll { own: Message { unit: own, priority }, others }.to_bytes(&mut bytes);
    bytes
}

/// So many others from this one on, each second address, all with this priority.
pub fn others_from(first: u16, count: usize, priority: u8) -> Vec<Said> {
    (first..).step_by(2).take(count).map(|unit| (unit, priority)).collect()
}
