//! The library's calls on the site plan and the member book, each with a safe wrapper. All their unsafe code is here,
//! but for the benchmark's.
//!
//! They are one kind of value: the bytes of a book, or of the plan to be made, and what is asked of it. The answer has
//! every place that any of them can write to, so that a call is also held to leaving the others alone.

use crate::book::members::Book;
use crate::book::site::{Plan, Wanted};
use crate::shared::check::{Answer, Call};
use crate::shared::kept::{self, On};
use crate::shared::lending::{filler, names_of, Empty, Filler, Lent};
use crate::shared::moments::Moment;
use crate::shared::printing::{buffer_shown, input_shown, number_shown};
use crate::shared::refusal::Refusal;
use std::fmt;

extern "C" {
    fn braidlark_plan(
        plan: *mut u8,
        plan_length: usize,
        network: u16,
        manager: u16,
        max_hops: u32,
        rows: u32,
        data_slots: u32,
        slot_ms: u32,
        beacon: u32,
    ) -> u8;

    fn braidlark_plan_numbers(plan: *const u8, plan_length: usize, numbers: *mut u32, numbers_length: usize) -> u8;

    fn braidlark_book_fresh(book: *mut u8, book_length: usize, plan: *const u8, plan_length: usize, time: Moment)
        -> u8;

    pub fn braidlark_join(
        book: *mut u8,
        book_length: usize,
        frame: *const u8,
        frame_length: usize,
        time: Moment,
        out: *mut u8,
        out_length: usize,
        written: *mut u32,
    ) -> u8;

    fn braidlark_slot_request(
        book: *mut u8,
        book_length: usize,
        frame: *const u8,
        frame_length: usize,
        time: Moment,
        out: *mut u8,
        out_length: usize,
        written: *mut u32,
    ) -> u8;

    fn braidlark_heard(book: *mut u8, book_length: usize, unit: u16, time: Moment) -> u8;

    fn braidlark_leave(book: *mut u8, book_length: usize, unit: u16, time: Moment) -> u8;

    pub fn braidlark_schedule(
        book: *const u8,
        book_length: usize,
        unit: u16,
        hop: u32,
        time: Moment,
        out: *mut u8,
        out_length: usize,
        written: *mut u32,
    ) -> u8;
}

/// What is asked; `room` is the length of the output buffer, `places` that of the one for numbers. A plan is made, and
/// tells its numbers, in the buffer that is the book's in the other calls.
#[derive(Clone, Debug)]
pub enum Ask {
    Plan { wanted: Wanted },
    Numbers { places: usize },
    Fresh { plan: Vec<u8>, time: Moment },
    Join { frame: Vec<u8>, time: Moment, room: usize },
    SlotRequest { frame: Vec<u8>, time: Moment, room: usize },
    Heard { unit: u16, time: Moment },
    Leave { unit: u16, time: Moment },
    Schedule { unit: u16, hop: u32, time: Moment, room: usize },
}

/// The calls by name, in the order of `Ask`, each with the numbers that it is answered with.
pub const CALLS: [(&str, &[u8]); 8] = [
    ("plan", &[0, 14]),
    ("plan numbers", &[0, 14, 5]),
    ("fresh", &[0, 14]),
    ("join", &[0, 14, 1, 2, 3, 4, 6, 15, 8, 12, 5]),
    ("slot request", &[0, 14, 1, 2, 3, 4, 6, 8, 13, 5]),
    ("heard", &[0, 14, 4, 8, 13]),
    ("leave", &[0, 14, 4, 8, 13]),
    ("schedule", &[0, 14, 4, 8, 13, 5]),
];

impl Ask {
    /// Whether the call goes on from the book that it is handed.
    pub fn takes_a_book(&self) -> bool {
        !matches!(self, Ask::Plan { .. } | Ask::Numbers { .. } | Ask::Fresh { .. })
    }

    /// The bytes that are handed in beside the book.
    fn input(&self) -> &[u8] {
        match self {
            Ask::Fresh { plan, .. } => plan,
            Ask::Join { frame, .. } | Ask::SlotRequest { frame, .. } => frame,
            _ => &[],
        }
    }

    fn room(&self) -> usize {
        match *self {
            Ask::Join { room, .. } | Ask::SlotRequest { room, .. } | Ask::Schedule { room, .. } => room,
            _ => 0,
        }
    }

    fn places(&self) -> usize {
        match *self {
            Ask::Numbers { places } => places,
            _ => 0,
        }
    }
}

impl kept::Ask for Ask {
    fn lent(&mut self) -> (Option<&mut Vec<u8>>, Option<&mut usize>) {
        match self {
            Ask::Fresh { plan, .. } => (Some(plan), None),
            Ask::Join { frame, room, .. } | Ask::SlotRequest { frame, room, .. } => (Some(frame), Some(room)),
            Ask::Schedule { room, .. } | Ask::Numbers { places: room } => (None, Some(room)),
            Ask::Plan { .. } | Ask::Heard { .. } | Ask::Leave { .. } => (None, None),
        }
    }
}

/// A call of the library with the bytes of its book.
type BookCall<'a> = On<'a, Ask>;

/// What there is after a call. Places that it did not write to hold their filler.
#[derive(PartialEq, Eq)]
pub struct BookLeft {
    pub book: Vec<u8>,
    pub out: Vec<u8>,
    pub written: u32,
    pub numbers: Vec<u32>,
}

impl BookLeft {
    /// What there is if nothing is written.
    pub fn untouched(book: &[u8], room: usize, places: usize) -> BookLeft {
        BookLeft { book: book.to_vec(), out: filler(room), written: u32::FILLER[0], numbers: filler(places) }
    }
}

/// The buffers of one call, each lent with filler around it.
pub struct Lending {
    pub book: Lent<u8>,
    pub input: Lent<u8>,
    pub out: Lent<u8>,
    pub written: Lent<u32>,
    numbers: Lent<u32>,
}

impl Lending {
    pub fn new(book: &[u8], input: &[u8], room: usize, places: usize) -> Lending {
        Lending {
            book: Lent::input(book),
            input: Lent::input(input),
            out: Lent::output(room),
            written: Lent::output(1),
            numbers: Lent::output(places),
        }
    }

    /// What there is after the call, to which this input was lent.
    pub fn answer(&self, status: u8, input: &[u8]) -> Answer<BookLeft> {
        let disturbed = names_of(&[
            ("around book", self.book.is_overrun()),
            ("frame, plan or image", self.input.is_changed(input)),
            ("around out", self.out.is_overrun()),
            ("around written", self.written.is_overrun()),
            ("around numbers", self.numbers.is_overrun()),
        ]);
        let left = BookLeft {
            book: self.book.contents().to_vec(),
            out: self.out.contents().to_vec(),
            written: self.written.contents()[0],
            numbers: self.numbers.contents().to_vec(),
        };
        Answer { status, left, disturbed }
    }
}

impl BookCall<'_> {
    #[rustfmt::skip] // It would give each argument a line.
    fn status(&self, lending: &mut Lending, empty: Empty) -> u8 {
        let (book, book_length) = (lending.book.address(empty), self.kept.len());
        let (input, input_length) = (lending.input.address(empty), self.ask.input().len());
        let (out, out_length) = (lending.out.address(empty), self.ask.room());
        let written = lending.written.address(empty);
        let (numbers, numbers_length) = (lending.numbers.address(empty), self.ask.places());
        // SAFETY: each address is that of a live buffer of the length given with it, or NULL with length 0.
        unsafe {
            match *self.ask {
                Ask::Plan { wanted: Wanted { network, manager, max_hops, rows, data_slots, slot_ms, beacon } } =>
                    braidlark_plan(book, book_length, network, manager, max_hops, rows, data_slots, slot_ms, beacon),
                Ask::Numbers { .. } => braidlark_plan_numbers(book, book_length, numbers, numbers_length),
                Ask::Fresh { time, .. } => braidlark_book_fresh(book, book_length, input, input_length, time),
                Ask::Join { time, .. } =>
                    braidlark_join(book, book_length, input, input_length, time, out, out_length, written),
                Ask::SlotRequest { time, .. } =>
                    braidlark_slot_request(book, book_length, input, input_length, time, out, out_length, written),
                Ask::Heard { unit, time } => braidlark_heard(book, book_length, unit, time),
                Ask::Leave { unit, time } => braidlark_leave(book, book_length, unit, time),
                Ask::Schedule { unit, hop, time, .. } =>
                    braidlark_schedule(book, book_length, unit, hop, time, out, out_length, written),
            }
        }
    }
}

impl Call for BookCall<'_> {
    type Left = BookLeft;

    fn name(&self) -> &'static str {
        CALLS[self.kind()].0
    }

    fn kind(&self) -> usize {
        match self.ask {
            Ask::Plan { .. } => 0,
            Ask::Numbers { .. } => 1,
            Ask::Fresh { .. } => 2,
            Ask::Join { .. } => 3,
            Ask::SlotRequest { .. } => 4,
            Ask::Heard { .. } => 5,
            Ask::Leave { .. } => 6,
            Ask::Schedule { .. } => 7,
        }
    }

    fn untouched(&self) -> BookLeft {
        BookLeft::untouched(self.kept, self.ask.room(), self.ask.places())
    }

    fn carry_out(&self, left: &mut BookLeft) -> Result<(), Refusal> {
        // What the buffer holds does not matter to a plan or a fresh book, but its length does.
        if let Ask::Plan { wanted } = self.ask {
            Plan::from_bytes(self.kept)?;
            wanted.plan()?.to_bytes(&mut left.book);
            return Ok(());
        }
        if let Ask::Numbers { .. } = self.ask {
            let numbers = Plan::from_bytes(self.kept)?.checked()?.numbers();
            left.numbers.get_mut(..numbers.len()).ok_or(Refusal::Room)?.copy_from_slice(&numbers);
            return Ok(());
        }
        let mut book = match self.ask {
            Ask::Fresh { plan, time } if self.kept.len() == Book::LENGTH => {
                Book::fresh(Plan::from_bytes(plan)?, *time)?
            }
            _ => Book::from_bytes(self.kept)?,
        };
        match self.ask {
            Ask::Plan { .. } | Ask::Numbers { .. } | Ask::Fresh { .. } => {}
            Ask::Join { frame, time, .. } => left.written = book.join(frame, *time, &mut left.out)? as u32,
            Ask::SlotRequest { frame, time, .. } => {
                left.written = book.slot_request(frame, *time, &mut left.out)? as u32;
            }
            Ask::Heard { unit, time } => book.heard(*unit, *time)?,
            Ask::Leave { unit, time } => book.leave(*unit, *time)?,
            Ask::Schedule { unit, hop, time, .. } => {
                left.written = book.schedule(*unit, *hop, *time, &mut left.out)? as u32;
            }
        }
        book.to_bytes(&mut left.book);
        Ok(())
    }

    fn make(&self, empty: Empty) -> Answer<BookLeft> {
        let mut lending = Lending::new(self.kept, self.ask.input(), self.ask.room(), self.ask.places());
        let status = self.status(&mut lending, empty);
        lending.answer(status, self.ask.input())
    }
}

impl fmt::Display for BookCall<'_> {
    fn fmt(&self, text: &mut fmt::Formatter) -> fmt::Result {
        write!(text, "book: {}; ", input_shown(self.kept))?;
        match self.ask {
            Ask::Plan { wanted } => write!(text, "{:?}", wanted),
            Ask::Numbers { places } => write!(text, "numbers: {} places", places),
            Ask::Fresh { plan, time } => write!(text, "plan: {}; time: {}", input_shown(plan), time),
            Ask::Join { frame, time, room } | Ask::SlotRequest { frame, time, room } => {
                write!(text, "frame: {}; time: {}; out: {} bytes", input_shown(frame), time, room)
            }
            Ask::Heard { unit, time } | Ask::Leave { unit, time } => {
                write!(text, "unit: {:#06x}; time: {}", unit, time)
            }
            Ask::Schedule { unit, hop, time, room } => {
                write!(text, "unit: {:#06x}; hop: {}; time: {}; out: {} bytes", unit, hop, time, room)
            }
        }
    }
}

impl fmt::Display for BookLeft {
    fn fmt(&self, text: &mut fmt::Formatter) -> fmt::Result {
        write!(text, "book: {}; out: {}", input_shown(&self.book), buffer_shown(&self.out))?;
        write!(text, "; written: {}; numbers: {}", number_shown(self.written), buffer_shown(&self.numbers))
    }
}
