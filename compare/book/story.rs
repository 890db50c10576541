//! A book and what is told of it, call by call, by the cases that have a name.

use crate::book::calls::{Ask, BookLeft};
use crate::book::drafts::{join_request, plan_bytes, slot_request};
use crate::book::members::*;
use crate::book::site::{self, *};
use crate::frames::independent;
use crate::frames::kinds::{ACCEPTED as JOINED, BEACON, JOIN_RESPONSE};
use crate::shared::check::{Agreement, Check, Difference};
use crate::shared::moments::Moment;
use crate::shared::refusal::ACCEPTED;

pub const NETWORK: u16 = 1;
pub const MANAGER: u16 = 0x0100;
pub const FIRST: u16 = 0x0201;
pub const SECOND: u16 = 0x0202;
pub const THIRD: u16 = 0x0203;
pub const FOURTH: u16 = 0x0204;

/// Room for every answer.
const ROOM: usize = 100;

pub fn site(max_hops: u8, rows: u8, data_slots: u8) -> Plan {
    Plan { network: NETWORK, manager: MANAGER, max_hops, rows, data_slots, slot_ms: 1, beacon: BEACON }
}

/// Every call that takes a book: three that need no live member, and then four that need `FIRST`.
pub fn every_call(time: Moment) -> [Ask; 7] {
    [
        join(THIRD, 1, time),
        Ask::Heard { unit: MANAGER, time },
        schedule(MANAGER, 0, time),
        slots(FIRST, 1, time),
        Ask::Heard { unit: FIRST, time },
        Ask::Leave { unit: FIRST, time },
        schedule(FIRST, 1, time),
    ]
}

pub fn join(unit: u16, asked: u8, time: Moment) -> Ask {
    Ask::Join { frame: join_request(unit, 0, NETWORK, asked), time, room: ROOM }
}

pub fn slots(unit: u16, asked: u8, time: Moment) -> Ask {
    Ask::SlotRequest { frame: slot_request(unit, asked, 0, 0), time, room: ROOM }
}

pub fn schedule(unit: u16, hop: u32, time: Moment) -> Ask {
    Ask::Schedule { unit, hop, time, room: ROOM }
}

/// A book and what is told of it.
pub struct Story<'a> {
    pub check: &'a mut Check,
    pub book: Vec<u8>,
    /// The time of the last call that changed it.
    pub time: Moment,
}

impl Story<'_> {
    pub fn begin(check: &mut Check, plan: Plan, start: Moment) -> Result<Story<'_>, Difference> {
        let mut story = Story { check, book: vec![0xFF; Book::LENGTH], time: start };
        story.change(Ask::Fresh { plan: plan_bytes(plan), time: start })?;
        Ok(story)
    }

    /// A call that is accepted and leaves its book to the ones after it.
    pub fn change(&mut self, ask: Ask) -> Result<BookLeft, Difference> {
        let left = self.is_accepted(ask)?;
        self.book.clone_from(&left.book);
        self.time = Book::from_bytes(&self.book).expect("the call left a book").time;
        Ok(left)
    }

    pub fn is_accepted(&mut self, ask: Ask) -> Result<BookLeft, Difference> {
        self.check.is_answered(ACCEPTED, &self.book, &ask).map(|answer| answer.left)
    }

    pub fn is_answered(&mut self, status: u8, ask: Ask) -> Agreement {
        self.check.is_answered(status, &self.book, &ask).map(drop)
    }

    /// Every call finds the book within rule, or refuses it with 14.
    pub fn is_judged(&mut self, in_rule: bool, time: Moment) -> Agreement {
        for ask in every_call(time) {
            let answer = self.check.ask(&self.book, &ask)?;
            assert_eq!(answer.status != 14, in_rule, "{:?}", ask);
        }
        Ok(())
    }

    /// Refused on a book that is a byte short, and accepted on the whole one.
    pub fn needs_a_book(&mut self, ask: Ask) -> Agreement {
        self.check.is_answered(14, &self.book[1..], &ask)?;
        self.is_accepted(ask).map(drop)
    }

    /// A join is answered with exactly these slots.
    pub fn joins(&mut self, unit: u16, asked: u8, time: Moment, slots: &[u32]) -> Agreement {
        let left = self.change(join(unit, asked, time))?;
        self.tells(&left, unit, slots);
        Ok(())
    }

    /// A slot request is answered with exactly these slots.
    pub fn requests(&mut self, unit: u16, asked: u8, time: Moment, held: &[u32]) -> Agreement {
        let left = self.change(slots(unit, asked, time))?;
        self.tells(&left, unit, held);
        Ok(())
    }

    /// One accepted response a slot, each of them a frame.
    fn tells(&self, left: &BookLeft, unit: u16, slots: &[u32]) {
        assert_eq!(left.written as usize, slots.len() * RESPONSE_LENGTH, "a response for each of {:?}", slots);
        for (frame, slot) in left.out.chunks(RESPONSE_LENGTH).zip(slots) {
            let numbers = independent::read(frame, usize::MAX).expect("a frame within every rule").numbers;
            let expected = [JOIN_RESPONSE.into(), unit.into(), JOINED, *slot, self.time.0, NETWORK.into()];
            assert_eq!(numbers, expected);
        }
    }

    fn kinds(&mut self, unit: u16, hop: u32) -> Result<Vec<u8>, Difference> {
        let left = self.is_accepted(schedule(unit, hop, self.time))?;
        Ok(left.out[..left.written as usize].to_vec())
    }

    /// A member sends in exactly these slots.
    pub fn sends(&mut self, unit: u16, hop: u32, slots: &[usize]) -> Agreement {
        let kinds = self.kinds(unit, hop)?;
        let sending = |slot: &usize| [DATA_TX, BEACON_TX, CONTROL_TX, DISCOVERY_TX].contains(&kinds[*slot]);
        assert_eq!((0..kinds.len()).filter(sending).collect::<Vec<usize>>(), slots);
        Ok(())
    }

    /// A member's schedule is this, in the paper's letters.
    pub fn shows(&mut self, unit: u16, hop: u32, letters: &str) -> Agreement {
        let kinds = self.kinds(unit, hop)?;
        assert_eq!(site::letters(&kinds), letters);
        Ok(())
    }
}
