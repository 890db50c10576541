//! Calls on bytes that the caller keeps from one to the next: a table, a book, or what is to become one.

use crate::shared::check::{Answered, Call, Check};
use std::fmt::Debug;

/// What is asked of those bytes.
pub trait Ask: Clone {
    /// The input beside them and the length of the output, where the call has one.
    fn lent(&mut self) -> (Option<&mut Vec<u8>>, Option<&mut usize>);
}

/// What is asked, and the bytes that it is asked of.
pub struct On<'a, A> {
    pub kept: &'a [u8],
    pub ask: &'a A,
}

impl Check {
    /// Puts what is asked of these bytes to both.
    pub fn ask<'a, A>(&mut self, kept: &'a [u8], ask: &'a A) -> Answered<On<'a, A>>
    where
        On<'a, A>: Call,
    {
        self.put(&On { kept, ask })
    }

    /// Puts what is asked of these bytes to both, who are held to this status.
    pub fn is_answered<'a, A: Debug>(&mut self, status: u8, kept: &'a [u8], ask: &'a A) -> Answered<On<'a, A>>
    where
        On<'a, A>: Call,
    {
        let answer = self.ask(kept, ask)?;
        assert_eq!(answer.status, status, "{:?}", ask);
        Ok(answer)
    }

    /// How many of 24 arguments of a random call are wrong. One call in eight is careless: several things are wrong
    /// with it, and the first counts.
    pub fn slips(&mut self) -> usize {
        self.random.one_of(&[1, 1, 1, 1, 1, 1, 1, 8])
    }
}
