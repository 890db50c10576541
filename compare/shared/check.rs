//! The check of a call, one for all subjects: it is put to the library and to the independent implementation, what both
//! leave behind is compared, and the call is counted or the difference told.
//!
//! A call is a value that holds its arguments. Its answer is the status together with the whole exit contents of every
//! buffer lent for output, so that what a call must leave alone is compared as well.

use crate::shared::lending::{Empty, BOTH_WAYS};
use crate::shared::progress::Progress;
use crate::shared::random::Random;
use crate::shared::refusal::{Refusal, ACCEPTED};
use crate::shared::tally::Tally;
use std::fmt::{Display, Formatter, Result as Shown};

/// A call with its arguments, which are what it is shown as.
pub trait Call: Display {
    /// What the lent buffers hold after it.
    type Left: PartialEq + Display;

    fn name(&self) -> &'static str;

    /// The place among the kinds of calls that its subject counts apart.
    fn kind(&self) -> usize {
        0
    }

    /// What a call leaves that writes nothing.
    fn untouched(&self) -> Self::Left;

    /// Lets the independent implementation answer; a refusal leaves all untouched.
    fn carry_out(&self, left: &mut Self::Left) -> Result<(), Refusal>;

    /// Puts the call to the library, with empty buffers lent like this.
    fn make(&self, empty: Empty) -> Answer<Self::Left>;
}

/// What a call gave back.
#[derive(PartialEq, Eq)]
pub struct Answer<L> {
    /// The number of a refusal, or `ACCEPTED`.
    pub status: u8,
    pub left: L,
    /// The names of what was changed although it must not be.
    pub disturbed: Vec<&'static str>,
}

/// The answer to a call on which both agree.
pub type Answered<C> = Result<Answer<<C as Call>::Left>, Difference>;
pub type Agreement = Result<(), Difference>;

impl<L> Answer<L> {
    pub fn is_accepted(&self) -> bool {
        self.status == ACCEPTED
    }
}

impl<L: Display> Display for Answer<L> {
    fn fmt(&self, text: &mut Formatter) -> Shown {
        write!(text, "status {}; {}", self.status, self.left)?;
        match self.disturbed.is_empty() {
            true => Ok(()),
            false => write!(text, "; changed and must not be: {}", self.disturbed.join(", ")),
        }
    }
}

/// What the paper has a call give back.
fn expected<C: Call>(call: &C) -> Answer<C::Left> {
    let mut left = call.untouched();
    let status = call.carry_out(&mut left).map_or_else(Refusal::number, |()| ACCEPTED);
    Answer { status, left, disturbed: Vec::new() }
}

/// A call that the library and the independent implementation answer differently.
pub struct Difference {
    call: String,
    answered: String,
    expected: String,
}

impl Display for Difference {
    fn fmt(&self, text: &mut Formatter) -> Shown {
        writeln!(text, "  call:     {}", self.call)?;
        writeln!(text, "  answered: {}", self.answered)?;
        write!(text, "  expected: {}", self.expected)
    }
}

/// The kinds of calls that a subject counts apart, by name, each with the numbers that it is answered with.
pub type Kinds = &'static [(&'static str, &'static [u8])];

/// The check of a subject: its random numbers, and the calls that agreed so far.
pub struct Check {
    pub random: Random,
    kinds: Kinds,
    tallies: Vec<Tally>,
}

impl Check {
    pub fn new(seed: u64, kinds: Kinds) -> Check {
        Check { random: Random::new(seed), kinds, tallies: kinds.iter().map(|_| Tally::new()).collect() }
    }

    /// Puts a call to both, with empty buffers lent in either way.
    pub fn put<C: Call>(&mut self, call: &C) -> Answered<C> {
        let empty = self.random.one_of(&BOTH_WAYS);
        self.put_lending(call, empty)
    }

    /// Puts a call to both, with empty buffers lent like this.
    pub fn put_lending<C: Call>(&mut self, call: &C, empty: Empty) -> Answered<C> {
        let (expected, answered) = (expected(call), call.make(empty));
        if answered != expected {
            return Err(Difference {
                call: format!("{}({}; {})", call.name(), call, empty),
                answered: answered.to_string(),
                expected: expected.to_string(),
            });
        }
        self.tallies[call.kind()].count(answered.status);
        Ok(answered)
    }

    /// Random runs of at most so many steps each, until there were `total` steps.
    pub fn runs(
        &mut self,
        total: u64,
        longest: usize,
        progress: &mut Progress,
        run: fn(&mut Check, u64) -> Agreement,
    ) -> Agreement {
        let mut done = 0;
        while done < total {
            let steps = (1 + self.random.below(longest) as u64).min(total - done);
            run(self, steps)?;
            done += steps;
            progress.step(done, total);
        }
        Ok(())
    }

    /// The tally of a subject that is done: each kind of call was answered with each of its numbers.
    pub fn tally(self) -> Tally {
        for ((name, statuses), tally) in self.kinds.iter().zip(&self.tallies) {
            for status in *statuses {
                assert!(tally.times(*status) > 0, "no {} was answered with {}", name, status);
            }
        }
        Tally::of_kinds(self.kinds.iter().map(|(name, _)| *name).zip(self.tallies).collect())
    }
}
