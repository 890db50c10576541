//! Times, from request 104 of document 02 alone: milliseconds modulo 2^32. This is the one place where times are put in
//! order and subtracted. A `Moment` has no other order than the one here.

use crate::shared::refusal::Refusal;
use std::fmt;
use std::ops::{Add, Sub};

/// Half of all times: a step of so much or more is not forward.
pub const HALF: u32 = 1 << 31;
/// The longest step that is forward.
pub const LONGEST_STEP: u32 = HALF - 1;

/// A time. To the library it is its number.
#[derive(Clone, Copy, Debug, PartialEq, Eq)]
#[repr(transparent)]
pub struct Moment(pub u32);

impl Moment {
    /// The wrapped difference: the age, at this moment, of what was at the other one.
    pub fn since(self, other: Moment) -> u32 {
        self.0.wrapping_sub(other.0)
    }

    /// Whether the step from the other moment to this one is forward. To stay is forward.
    pub fn follows(self, other: Moment) -> bool {
        self.since(other) < HALF
    }

    /// The wrapped difference read as a signed number: half of all times is the least of those.
    pub fn ahead_of(self, other: Moment) -> i32 {
        self.since(other) as i32
    }
}

/// Refuses a call whose time does not follow the last accepted one.
pub fn accept(last: Moment, time: Moment) -> Result<(), Refusal> {
    match time.follows(last) {
        true => Ok(()),
        false => Err(Refusal::Early),
    }
}

impl Add<u32> for Moment {
    type Output = Moment;

    fn add(self, ms: u32) -> Moment {
        Moment(self.0.wrapping_add(ms))
    }
}

impl Sub<u32> for Moment {
    type Output = Moment;

    fn sub(self, ms: u32) -> Moment {
        Moment(self.0.wrapping_sub(ms))
    }
}

impl fmt::Display for Moment {
    fn fmt(&self, text: &mut fmt::Formatter) -> fmt::Result {
        self.0.fmt(text)
    }
}
