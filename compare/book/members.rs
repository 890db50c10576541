//! The independent member book, from the paper's section on it alone: its rows and when they are live, joining, slot
//! requests, hearing, leaving and schedules. It works in place, and is also what the library is measured against.

use crate::book::site::{Plan, MOST_ROWS};
use crate::frames::kinds::{checksum, ACCEPTED, JOIN_REQUEST, JOIN_RESPONSE, LONGEST_FRAME, SLOT_REQUEST};
use crate::shared::moments::{accept, Moment};
use crate::shared::numbers::{is_unit, long, word};
use crate::shared::refusal::Refusal;

/// The greatest age, in ms, of a live member's last accepted call.
pub const LIVE_AGE: u32 = 300_000;
/// The most data slots of one member.
pub const MOST_HELD: u32 = 4;

pub const JOIN_REQUEST_LENGTH: usize = 8;
pub const SLOT_REQUEST_LENGTH: usize = 7;
pub const RESPONSE_LENGTH: usize = 13;

/// A member: bit i of its slots is data slot i.
#[derive(Clone, Copy, Debug, PartialEq, Eq)]
pub struct Row {
    pub unit: u16,
    pub slots: u64,
    pub time: Moment,
}

impl Row {
    pub const EMPTY: Row = Row { unit: 0, slots: 0, time: Moment(0) };
}

/// A site's book. The manager is in row 0, and rows past those of the plan are empty.
#[derive(Clone, Debug, PartialEq, Eq)]
pub struct Book {
    pub plan: Plan,
    pub time: Moment,
    pub rows: [Row; MOST_ROWS],
}

/// The calls.
impl Book {
    #[inline(never)]
    pub fn fresh(plan: Plan, time: Moment) -> Result<Book, Refusal> {
        let plan = plan.checked()?;
        let mut rows = [Row::EMPTY; MOST_ROWS];
        rows[0] = Row { unit: plan.manager, slots: 1, time };
        Ok(Book { plan, time, rows })
    }

    /// Writes the responses to a join request, and answers their length.
    #[inline(never)]
    pub fn join(&mut self, frame: &[u8], time: Moment, out: &mut [u8]) -> Result<usize, Refusal> {
        self.check()?;
        let unit = self.sender(frame, JOIN_REQUEST, JOIN_REQUEST_LENGTH)?;
        let (network, asked) = (word(frame, 4), frame[6]);
        if network != 0 && network != self.plan.network {
            return Err(Refusal::Network);
        }
        accept(self.time, time)?;
        let census = self.census(unit, time);
        let (row, slots) = match (census.own, census.first_free) {
            (Some(row), _) => (row, self.rows[row].slots),
            (None, Some(row)) => (row, lowest(census.free, wanted(asked).min(census.spare() + 1))),
            (None, None) => return Err(Refusal::Full),
        };
        self.grant(row, Row { unit, slots, time }, out)
    }

    /// Writes the responses to a slot request, and answers their length.
    #[inline(never)]
    pub fn slot_request(&mut self, frame: &[u8], time: Moment, out: &mut [u8]) -> Result<usize, Refusal> {
        self.check()?;
        let unit = self.sender(frame, SLOT_REQUEST, SLOT_REQUEST_LENGTH)?;
        let asked = frame[3];
        accept(self.time, time)?;
        let census = self.census(unit, time);
        let row = census.own.ok_or(Refusal::NotMember)?;
        let own = self.rows[row].slots;
        let held = own.count_ones();
        let count = wanted(asked).min(held + census.spare());
        let slots = match count < held {
            true => without_highest(own, held - count),
            false => own | lowest(census.free, count - held),
        };
        self.grant(row, Row { unit, slots, time }, out)
    }

    #[inline(never)]
    pub fn heard(&mut self, unit: u16, time: Moment) -> Result<(), Refusal> {
        let row = self.member(unit, time)?;
        self.begin_change(time);
        self.rows[row].time = time;
        Ok(())
    }

    #[inline(never)]
    pub fn leave(&mut self, unit: u16, time: Moment) -> Result<(), Refusal> {
        let row = self.member(unit, time)?;
        if row == 0 {
            return Err(Refusal::NotMember);
        }
        self.begin_change(time);
        self.rows[row] = Row::EMPTY;
        Ok(())
    }

    /// Writes what a member does in each slot, and answers the number of slots.
    #[inline(never)]
    pub fn schedule(&self, unit: u16, hop: u32, time: Moment, out: &mut [u8]) -> Result<usize, Refusal> {
        self.check()?;
        if !is_unit(unit) {
            return Err(Refusal::Field);
        }
        accept(self.time, time)?;
        let hops = if unit == self.plan.manager { 0..=0 } else { 1..=u32::from(self.plan.max_hops) };
        if !hops.contains(&hop) {
            return Err(Refusal::OutOfRule);
        }
        let row = self.live_row(unit, time).ok_or(Refusal::NotMember)?;
        let slots = self.plan.slots();
        let out = out.get_mut(..slots).ok_or(Refusal::Room)?;
        self.plan.write_schedule(row, self.rows[row].slots, hop as usize, out);
        Ok(slots)
    }
}

/// What the calls are made of.
impl Book {
    /// Refuses a book that is out of rule.
    pub fn check(&self) -> Result<(), Refusal> {
        let plan = self.plan.checked()?;
        let (rows, beyond) = self.rows.split_at(usize::from(plan.rows));
        let mut taken = 0u64;
        let mut free_rows = 0;
        for (place, row) in rows.iter().enumerate() {
            if *row == Row::EMPTY {
                free_rows += 1;
            } else if self.allows(place, taken) && rows[..place].iter().all(|other| other.unit != row.unit) {
                taken |= row.slots;
            } else {
                return Err(Refusal::OutOfRule);
            }
        }
        let free_slots = u32::from(plan.data_slots) - taken.count_ones();
        let in_rule = rows[0].unit == plan.manager && free_slots >= free_rows;
        match in_rule && beyond.iter().all(|row| *row == Row::EMPTY) {
            true => Ok(()),
            false => Err(Refusal::OutOfRule),
        }
    }

    /// Whether a row in use is within rule, beside others that have taken these slots. That of the manager, row 0, has
    /// any time.
    fn allows(&self, place: usize, taken: u64) -> bool {
        let row = &self.rows[place];
        is_unit(row.unit)
            && row.slots & (taken | !self.data_slots()) == 0
            && (1..=MOST_HELD).contains(&row.slots.count_ones())
            && (place == 0 || self.time.follows(row.time))
    }

    /// The set of all data slots: fewer than 64.
    fn data_slots(&self) -> u64 {
        (1 << self.plan.data_slots) - 1
    }

    /// The unit that sent this request, whose kind and length the call wants.
    fn sender(&self, frame: &[u8], code: u8, length: usize) -> Result<u16, Refusal> {
        if frame.is_empty() || frame.len() > LONGEST_FRAME {
            return Err(Refusal::Length);
        }
        if frame[0] != code {
            return Err(Refusal::Type);
        }
        if frame.len() != length {
            return Err(Refusal::Length);
        }
        if checksum(&frame[..length - 1]) != frame[length - 1] {
            return Err(Refusal::Checksum);
        }
        match word(frame, 1) {
            unit if !is_unit(unit) => Err(Refusal::Field),
            unit if unit == self.plan.manager => Err(Refusal::Own),
            unit => Ok(unit),
        }
    }

    pub fn is_live(&self, place: usize, time: Moment) -> bool {
        let row = &self.rows[place];
        place == 0 || row.unit != 0 && time.since(row.time) <= LIVE_AGE
    }

    fn live_row(&self, unit: u16, time: Moment) -> Option<usize> {
        let place = self.rows.iter().position(|row| row.unit == unit)?;
        self.is_live(place, time).then(|| place)
    }

    /// The row of the live member that a call on a unit names.
    fn member(&self, unit: u16, time: Moment) -> Result<usize, Refusal> {
        self.check()?;
        if !is_unit(unit) {
            return Err(Refusal::Field);
        }
        accept(self.time, time)?;
        self.live_row(unit, time).ok_or(Refusal::NotMember)
    }

    fn census(&self, unit: u16, time: Moment) -> Census {
        let mut census = Census { free: self.data_slots(), free_rows: 0, first_free: None, own: None };
        for place in 0..usize::from(self.plan.rows) {
            if self.is_live(place, time) {
                census.free &= !self.rows[place].slots;
                if self.rows[place].unit == unit {
                    census.own = Some(place);
                }
            } else {
                census.free_rows += 1;
                census.first_free = census.first_free.or(Some(place));
            }
        }
        census
    }

    /// Records the time of an accepted call and drops the members that are silent.
    fn begin_change(&mut self, time: Moment) {
        self.time = time;
        for place in 1..usize::from(self.plan.rows) {
            if !self.is_live(place, time) {
                self.rows[place] = Row::EMPTY;
            }
        }
    }

    /// Answers a member with what it holds from now on, and records that, if the responses fit.
    fn grant(&mut self, place: usize, row: Row, out: &mut [u8]) -> Result<usize, Refusal> {
        let length = RESPONSE_LENGTH * (1 + row.slots.count_ones() as usize);
        let out = out.get_mut(..length).ok_or(Refusal::Room)?;
        let mut left = row.slots;
        let mut slot = self.plan.control_at(place);
        for frame in out.chunks_exact_mut(RESPONSE_LENGTH) {
            self.write_response(&row, slot, frame);
            slot = self.plan.data_at(left.trailing_zeros() as usize);
            left &= left.wrapping_sub(1);
        }
        self.begin_change(row.time);
        self.rows[place] = row;
        Ok(length)
    }

    fn write_response(&self, row: &Row, slot: usize, frame: &mut [u8]) {
        frame[0] = JOIN_RESPONSE;
        frame[1..3].copy_from_slice(&row.unit.to_le_bytes());
        frame[3] = ACCEPTED as u8;
        frame[4..6].copy_from_slice(&(slot as u16).to_le_bytes());
        frame[6..10].copy_from_slice(&row.time.0.to_le_bytes());
        frame[10..12].copy_from_slice(&self.plan.network.to_le_bytes());
        frame[12] = checksum(&frame[..12]);
    }
}

/// What is free at a call's time, when silent members do not count, and the row of the unit that calls.
struct Census {
    free: u64,
    free_rows: u32,
    first_free: Option<usize>,
    own: Option<usize>,
}

impl Census {
    /// How many data slots are free beyond one for each free row. A book within rule has none too few.
    fn spare(&self) -> u32 {
        self.free.count_ones() - self.free_rows
    }
}

/// The slots that a unit wants that asked for so many.
fn wanted(asked: u8) -> u32 {
    u32::from(asked).clamp(1, MOST_HELD)
}

/// So many of the lowest of a set, or all if it has fewer.
fn lowest(set: u64, count: u32) -> u64 {
    let mut rest = set;
    for _ in 0..count {
        rest &= rest.wrapping_sub(1);
    }
    set ^ rest
}

/// A set without so many of its highest. It has as many.
fn without_highest(set: u64, count: u32) -> u64 {
    (0..count).fold(set, |left, _| left & !(1 << (63 - left.leading_zeros())))
}

/// The bytes that a book is at the boundary.
impl Book {
    pub const HEAD_LENGTH: usize = Plan::LENGTH + 4;
    pub const ROW_LENGTH: usize = 14;
    pub const LENGTH: usize = Book::HEAD_LENGTH + MOST_ROWS * Book::ROW_LENGTH;

    /// The book of these bytes, within rule or not; but there is none for another length.
    #[inline(never)]
    pub fn from_bytes(bytes: &[u8]) -> Result<Book, Refusal> {
        if bytes.len() != Book::LENGTH {
            return Err(Refusal::OutOfRule);
        }
        let (head, rest) = bytes.split_at(Book::HEAD_LENGTH);
        let plan = Plan::from_bytes(&head[..Plan::LENGTH])?;
        let mut rows = [Row::EMPTY; MOST_ROWS];
        for (row, bytes) in rows.iter_mut().zip(rest.chunks_exact(Book::ROW_LENGTH)) {
            let slots = u64::from(long(bytes, 2)) | u64::from(long(bytes, 6)) << 32;
            *row = Row { unit: word(bytes, 0), slots, time: Moment(long(bytes, 10)) };
        }
        Ok(Book { plan, time: Moment(long(head, Plan::LENGTH)), rows })
    }

    #[inline(never)]
    pub fn to_bytes(&self, bytes: &mut [u8]) {
        let (head, rest) = bytes.split_at_mut(Book::HEAD_LENGTH);
        self.plan.to_bytes(&mut head[..Plan::LENGTH]);
        head[Plan::LENGTH..].copy_from_slice(&self.time.0.to_le_bytes());
        for (row, bytes) in self.rows.iter().zip(rest.chunks_exact_mut(Book::ROW_LENGTH)) {
            bytes[0..2].copy_from_slice(&row.unit.to_le_bytes());
            bytes[2..10].copy_from_slice(&row.slots.to_le_bytes());
            bytes[10..14].copy_from_slice(&row.time.0.to_le_bytes());
        }
    }
}
