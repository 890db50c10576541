//! The library's calls on polls, each with a safe wrapper. All their unsafe code is here, but for the benchmark's.
//!
//! They are one kind of value: a poll's bytes, and what is asked of it. The answer has every place that any of them can
//! write to, so that a call is also held to leaving the others alone.

use crate::poll::election::Poll;
use crate::shared::check::{Answer, Call};
use crate::shared::kept::{self, On};
use crate::shared::lending::{names_of, Empty, Filler, Lent};
use crate::shared::printing::input_shown;
use crate::shared::refusal::Refusal;
use std::fmt;

extern "C" {
    fn braidlark_poll_fresh(poll: *mut u8, poll_length: usize, own: u16, priority: u8) -> u8;

    pub fn braidlark_poll_hear(poll: *mut u8, poll_length: usize, frame: *const u8, frame_length: usize) -> u8;

    pub fn braidlark_poll_winner(poll: *const u8, poll_length: usize, winner: *mut u16) -> u8;
}

/// What is asked of a poll; `winner` is what the place for the winner holds before the call.
#[derive(Clone, Debug)]
pub enum Ask {
    Fresh { own: u16, priority: u8 },
    Hear { frame: Vec<u8> },
    Winner { winner: u16 },
}

/// The calls by name, in the order of `Ask`, each with the numbers that it is answered with.
pub const CALLS: [(&str, &[u8]); 3] =
    [("fresh", &[0, 14, 4]), ("hear", &[0, 14, 1, 2, 3, 4, 6, 12]), ("winner", &[0, 14])];

impl Ask {
    fn frame(&self) -> &[u8] {
        match self {
            Ask::Hear { frame } => frame,
            Ask::Fresh { .. } | Ask::Winner { .. } => &[],
        }
    }

    fn winner(&self) -> u16 {
        match *self {
            Ask::Winner { winner } => winner,
            Ask::Fresh { .. } | Ask::Hear { .. } => u16::FILLER[0],
        }
    }
}

impl kept::Ask for Ask {
    fn lent(&mut self) -> (Option<&mut Vec<u8>>, Option<&mut usize>) {
        match self {
            Ask::Hear { frame } => (Some(frame), None),
            Ask::Fresh { .. } | Ask::Winner { .. } => (None, None),
        }
    }
}

/// A call of the library with the bytes of its poll.
type PollCall<'a> = On<'a, Ask>;

/// What there is after a call.
#[derive(PartialEq, Eq)]
pub struct PollLeft {
    pub poll: Vec<u8>,
    pub winner: u16,
}

impl Call for PollCall<'_> {
    type Left = PollLeft;

    fn name(&self) -> &'static str {
        CALLS[self.kind()].0
    }

    fn kind(&self) -> usize {
        match self.ask {
            Ask::Fresh { .. } => 0,
            Ask::Hear { .. } => 1,
            Ask::Winner { .. } => 2,
        }
    }

    fn untouched(&self) -> PollLeft {
        PollLeft { poll: self.kept.to_vec(), winner: self.ask.winner() }
    }

    fn carry_out(&self, left: &mut PollLeft) -> Result<(), Refusal> {
        let mut poll = match *self.ask {
            // What the buffer holds does not matter, but its length does.
            Ask::Fresh { own, priority } if self.kept.len() == Poll::LENGTH => Poll::fresh(own, priority)?,
            _ => Poll::from_bytes(self.kept)?,
        };
        match self.ask {
            Ask::Fresh { .. } => {}
            Ask::Hear { frame } => poll.hear(frame)?,
            Ask::Winner { .. } => left.winner = poll.winner(),
        }
        poll.to_bytes(&mut left.poll);
        Ok(())
    }

    fn make(&self, empty: Empty) -> Answer<PollLeft> {
        let (mut poll, mut frame) = (Lent::input(self.kept), Lent::input(self.ask.frame()));
        let mut winner = Lent::input(&[self.ask.winner()]);
        let (poll_address, poll_length) = (poll.address(empty), self.kept.len());
        let (frame_address, frame_length) = (frame.address(empty), self.ask.frame().len());
        let winner_address = winner.address(empty);
        // SAFETY: each address is that of a live buffer of the length given with it, or NULL with length 0.
        let status = unsafe {
            match *self.ask {
                Ask::Fresh { own, priority } => braidlark_poll_fresh(poll_address, poll_length, own, priority),
                Ask::Hear { .. } => braidlark_poll_hear(poll_address, poll_length, frame_address, frame_length),
                Ask::Winner { .. } => braidlark_poll_winner(poll_address, poll_length, winner_address),
            }
        };
        let disturbed = names_of(&[
            ("around poll", poll.is_overrun()),
            ("frame", frame.is_changed(self.ask.frame())),
            ("around winner", winner.is_overrun()),
        ]);
        let left = PollLeft { poll: poll.contents().to_vec(), winner: winner.contents()[0] };
        Answer { status, left, disturbed }
    }
}

impl fmt::Display for PollCall<'_> {
    fn fmt(&self, text: &mut fmt::Formatter) -> fmt::Result {
        write!(text, "poll: {}; ", input_shown(self.kept))?;
        match self.ask {
            Ask::Fresh { own, priority } => write!(text, "own: {:#06x}; priority: {}", own, priority),
            Ask::Hear { frame } => write!(text, "frame: {}", input_shown(frame)),
            Ask::Winner { winner } => write!(text, "winner: {:#06x}", winner),
        }
    }
}

impl fmt::Display for PollLeft {
    fn fmt(&self, text: &mut fmt::Formatter) -> fmt::Result {
        write!(text, "poll: {}; winner: {:#06x}", input_shown(&self.poll), self.winner)
    }
}
