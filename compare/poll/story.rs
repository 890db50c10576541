//! A poll and what is told of it, call by call, by the cases that have a name.

use crate::poll::calls::Ask;
use crate::poll::drafts::*;
use crate::poll::election::{Poll, MOST_OTHERS};
use crate::shared::check::{Agreement, Check, Difference};
use crate::shared::refusal::ACCEPTED;

/// This unit, and others below and above it. The lower the address, the higher is its low byte.
pub const OWN: u16 = 0x0203;
pub const LOWER: u16 = 0x0104;
pub const HIGHER: u16 = 0x0302;
pub const HIGHEST: u16 = 0x0401;

/// The first and the last other unit in a full poll: there is an address between any two.
pub const FIRST: u16 = 0x0301;
pub const LAST: u16 = FIRST + 2 * (MOST_OTHERS as u16 - 1);

pub fn hear(unit: u16, priority: u8) -> Ask {
    Ask::Hear { frame: election(unit, priority) }
}

/// A poll and what is told of it.
pub struct Story<'a> {
    pub check: &'a mut Check,
    pub poll: Vec<u8>,
}

impl Story<'_> {
    /// The fresh poll of a unit, in a buffer that held anything.
    pub fn begin(check: &mut Check, (own, priority): Said) -> Result<Story<'_>, Difference> {
        let before = check.random.bytes(Poll::LENGTH);
        let poll = check.is_answered(ACCEPTED, &before, &Ask::Fresh { own, priority })?.left.poll;
        Ok(Story { check, poll })
    }

    /// A poll with no more room, in which each has this priority.
    pub fn full(check: &mut Check, priority: u8) -> Result<Story<'_>, Difference> {
        let mut story = Story::begin(check, (OWN, priority))?;
        for (unit, priority) in others_from(FIRST, MOST_OTHERS, priority) {
            story.hears((unit, priority))?;
        }
        Ok(story)
    }

    /// A message that is accepted and leaves its poll to the calls after it.
    pub fn hears(&mut self, (unit, priority): Said) -> Agreement {
        self.poll = self.check.is_answered(ACCEPTED, &self.poll, &hear(unit, priority))?.left.poll;
        Ok(())
    }

    /// The winner is this unit, whatever its place held before.
    pub fn names(&mut self, unit: u16) -> Agreement {
        for winner in BEFORE {
            let answer = self.check.is_answered(ACCEPTED, &self.poll, &Ask::Winner { winner })?;
            assert_eq!(answer.left.winner, unit, "the winner of {:02x?}", self.poll);
        }
        Ok(())
    }

    /// The poll's bytes are those of a unit that heard these others.
    pub fn holds(&self, own: Said, heard: &[Said]) {
        assert_eq!(self.poll, poll_bytes(own, heard), "own {:x?}, heard {:x?}", own, heard);
    }

    pub fn is_answered(&mut self, status: u8, ask: Ask) -> Agreement {
        self.check.is_answered(status, &self.poll, &ask).map(drop)
    }
}
