//! The library's two calls on stored images, each with a safe wrapper. All their unsafe code is here, but for the
//! benchmark's.
//!
//! They lend what the calls on books lend, and their answer has the same places.

use crate::book::calls::{BookLeft, Lending};
use crate::book::members::Book;
use crate::shared::check::{Answer, Call};
use crate::shared::kept::{self, On};
use crate::shared::lending::Empty;
use crate::shared::moments::Moment;
use crate::shared::printing::input_shown;
use crate::shared::refusal::Refusal;
use std::fmt;

extern "C" {
    pub fn braidlark_image(
        book: *const u8,
        book_length: usize,
        time: Moment,
        out: *mut u8,
        out_length: usize,
        written: *mut u32,
    ) -> u8;

    pub fn braidlark_restore(
        book: *mut u8,
        book_length: usize,
        image: *const u8,
        image_length: usize,
        time: Moment,
    ) -> u8;
}

/// What is asked; `room` is the length of the output buffer.
#[derive(Clone, Debug)]
pub enum Ask {
    Image { time: Moment, room: usize },
    Restore { image: Vec<u8>, time: Moment },
}

/// The calls by name, in the order of `Ask`, each with the numbers that it is answered with.
pub const CALLS: [(&str, &[u8]); 2] = [("image", &[0, 14, 8, 5]), ("restore", &[0, 14])];

impl Ask {
    /// The bytes that are handed in beside the book.
    pub fn input(&self) -> &[u8] {
        match self {
            Ask::Image { .. } => &[],
            Ask::Restore { image, .. } => image,
        }
    }

    fn room(&self) -> usize {
        match *self {
            Ask::Image { room, .. } => room,
            Ask::Restore { .. } => 0,
        }
    }
}

impl kept::Ask for Ask {
    fn lent(&mut self) -> (Option<&mut Vec<u8>>, Option<&mut usize>) {
        match self {
            Ask::Image { room, .. } => (None, Some(room)),
            Ask::Restore { image, .. } => (Some(image), None),
        }
    }
}

/// A call of the library with the bytes of its book.
type ImageCall<'a> = On<'a, Ask>;

impl ImageCall<'_> {
    fn status(&self, lending: &mut Lending, empty: Empty) -> u8 {
        let (book, book_length) = (lending.book.address(empty), self.kept.len());
        let (image, image_length) = (lending.input.address(empty), self.ask.input().len());
        let (out, out_length) = (lending.out.address(empty), self.ask.room());
        let written = lending.written.address(empty);
        // SAFETY: each address is that of a live buffer of the length given with it, or NULL with length 0.
        unsafe {
            match *self.ask {
                Ask::Image { time, .. } => braidlark_image(book, book_length, time, out, out_length, written),
                Ask::Restore { time, .. } => braidlark_restore(book, book_length, image, image_length, time),
            }
        }
    }
}

impl Call for ImageCall<'_> {
    type Left = BookLeft;

    fn name(&self) -> &'static str {
        CALLS[self.kind()].0
    }

    fn kind(&self) -> usize {
        match self.ask {
            Ask::Image { .. } => 0,
            Ask::Restore { .. } => 1,
        }
    }

    fn untouched(&self) -> BookLeft {
        BookLeft::untouched(self.kept, self.ask.room(), 0)
    }

    fn carry_out(&self, left: &mut BookLeft) -> Result<(), Refusal> {
        // What the buffer holds does not matter to a restore, but its length does.
        let book = Book::from_bytes(self.kept)?;
        match self.ask {
            Ask::Image { time, .. } => left.written = book.write_image(*time, &mut left.out)? as u32,
            Ask::Restore { image, time } => Book::restore(image, *time)?.to_bytes(&mut left.book),
        }
        Ok(())
    }

    fn make(&self, empty: Empty) -> Answer<BookLeft> {
        let mut lending = Lending::new(self.kept, self.ask.input(), self.ask.room(), 0);
        let status = self.status(&mut lending, empty);
        lending.answer(status, self.ask.input())
    }
}

impl fmt::Display for ImageCall<'_> {
    fn fmt(&self, text: &mut fmt::Formatter) -> fmt::Result {
        write!(text, "book: {}; ", input_shown(self.kept))?;
        match self.ask {
            Ask::Image { time, room } => write!(text, "time: {}; out: {} bytes", time, room),
            Ask::Restore { image, time } => write!(text, "image: {}; time: {}", input_shown(image), time),
        }
    }
}
