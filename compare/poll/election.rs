//! The independent poll, from request 109 of document 02 alone: the last message of each unit that was heard, oneself
//! included, and the winner among them. It is also what the library's calls are measured against.

use crate::frames::bodies::body_of;
use crate::frames::kinds::ELECTION;
use crate::shared::numbers::{is_unit, word};
use crate::shared::refusal::Refusal;
use std::cmp::Reverse;

/// How many units a poll has room for beside oneself.
pub const MOST_OTHERS: usize = 24;

/// The length of an election message.
const MESSAGE_LENGTH: usize = 5;

/// A unit's last message.
#[derive(Clone, Copy, Debug, PartialEq, Eq)]
pub struct Message {
    pub unit: u16,
    pub priority: u8,
}

impl Message {
    pub const NONE: Message = Message { unit: 0, priority: 0 };

    /// Reads an election message of any unit.
    fn read(frame: &[u8]) -> Result<Message, Refusal> {
        let body = body_of(frame, ELECTION, MESSAGE_LENGTH, |_| 0)?;
        let message = Message { unit: word(body, 1), priority: body[3] };
        match is_unit(message.unit) {
            true => Ok(message),
            false => Err(Refusal::Field),
        }
    }

    /// Of two messages the one with the greater rank wins: the higher priority, then the lower address.
    fn rank(&self) -> (u8, Reverse<u16>) {
        (self.priority, Reverse(self.unit))
    }
}

/// A unit's poll. The others that were heard come first, ascending by unit; behind them there are none.
#[derive(Clone, Debug, PartialEq, Eq)]
pub struct Poll {
    pub own: Message,
    pub others: [Message; MOST_OTHERS],
}

/// The calls, on a poll within rule.
impl Poll {
    #[inline(never)]
    pub fn fresh(own: u16, priority: u8) -> Result<Poll, Refusal> {
        match is_unit(own) {
            true => Ok(Poll { own: Message { unit: own, priority }, others: [Message::NONE; MOST_OTHERS] }),
            false => Err(Refusal::Field),
        }
    }

    #[inline(never)]
    pub fn hear(&mut self, frame: &[u8]) -> Result<(), Refusal> {
        let message = Message::read(frame)?;
        if message.unit == self.own.unit {
            return Err(Refusal::Own);
        }
        let heard = self.heard().len();
        let place = self.heard().iter().position(|other| other.unit >= message.unit).unwrap_or(heard);
        if place == heard || self.others[place].unit != message.unit {
            if heard == MOST_OTHERS {
                return Err(Refusal::Full);
            }
            self.others.copy_within(place..heard, place + 1);
        }
        self.others[place] = message;
        Ok(())
    }

    #[inline(never)]
    pub fn winner(&self) -> u16 {
        let best = |best: Message, other: &Message| if other.rank() > best.rank() { *other } else { best };
        self.heard().iter().fold(self.own, best).unit
    }
}

/// What the calls are made of.
impl Poll {
    /// The others that were heard.
    pub fn heard(&self) -> &[Message] {
        let count = self.others.iter().position(|other| other.unit == 0).unwrap_or(MOST_OTHERS);
        &self.others[..count]
    }

    fn is_in_rule(&self) -> bool {
        let (heard, own) = (self.heard(), self.own.unit);
        is_unit(own)
            && heard.iter().all(|other| is_unit(other.unit) && other.unit != own)
            && heard.windows(2).all(|pair| pair[0].unit < pair[1].unit)
            && self.others[heard.len()..].iter().all(|other| *other == Message::NONE)
    }
}

/// The bytes that a poll is at the boundary.
impl Poll {
    pub const PLACE_LENGTH: usize = 3;
    pub const LENGTH: usize = Poll::PLACE_LENGTH * (1 + MOST_OTHERS);

    /// The poll of these bytes, which is within rule.
    #[inline(never)]
    pub fn from_bytes(bytes: &[u8]) -> Result<Poll, Refusal> {
        if bytes.len() != Poll::LENGTH {
            return Err(Refusal::OutOfRule);
        }
        let message = |bytes: &[u8]| Message { unit: word(bytes, 0), priority: bytes[2] };
        let (own, others) = bytes.split_at(Poll::PLACE_LENGTH);
        let mut poll = Poll { own: message(own), others: [Message::NONE; MOST_OTHERS] };
        for (other, bytes) in poll.others.iter_mut().zip(others.chunks_exact(Poll::PLACE_LENGTH)) {
            *other = message(bytes);
        }
        match poll.is_in_rule() {
            true => Ok(poll),
            false => Err(Refusal::OutOfRule),
        }
    }

    #[inline(never)]
    pub fn to_bytes(&self, bytes: &mut [u8]) {
        let messages = [self.own].into_iter().chain(self.others);
        for (message, bytes) in messages.zip(bytes.chunks_exact_mut(Poll::PLACE_LENGTH)) {
            bytes[..2].copy_from_slice(&message.unit.to_le_bytes());
            bytes[2] = message.priority;
        }
    }
}
