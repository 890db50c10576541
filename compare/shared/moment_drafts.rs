//! The times that the checks choose: around the top, where times begin again at 0, around the half of all times, and at
//! the limits of a step.

use crate::shared::moments::*;
use crate::shared::random::Random;

/// The first moment after the top.
pub const TOP: Moment = Moment(0);

/// Where cases by name begin: far from the top, and so that each age that the paper gives is met at the top and is
/// passed there by one; also so that the top, or the half of all times, lies in the midst of a case.
pub const STARTS: [Moment; 12] = [
    Moment(1_000_000),
    TOP,
    before_the_top(1),
    before_the_top(60_000),
    before_the_top(60_001),
    before_the_top(150_000),
    before_the_top(300_000),
    before_the_top(300_001),
    before_the_top(360_000),
    before_the_top(360_001),
    Moment(HALF),
    Moment(HALF - 300_001),
];

/// Steps that are forward, and steps that are not. A time that is so much older than the last accepted one may be
/// stored, and may not.
pub const FORWARD: [u32; 4] = [0, 1, LONGEST_STEP - 1, LONGEST_STEP];
pub const NOT_FORWARD: [u32; 4] = [HALF, HALF + 1, u32::MAX - 1, u32::MAX];

const fn before_the_top(ms: u32) -> Moment {
    Moment(ms.wrapping_neg())
}

pub fn anywhere(random: &mut Random) -> Moment {
    Moment(random.draw() as u32)
}

/// A moment up to 20 minutes before or after another, nearer ones as likely as farther ones; more often before it.
fn around(moment: Moment, random: &mut Random) -> Moment {
    let bits = random.below(21);
    let far = random.below(1 << bits) as u32;
    random.one_of(&[moment - far, moment - far, moment + far])
}

/// When a history starts: mostly so that it soon passes the top, or has times of before it.
pub fn start(random: &mut Random) -> Moment {
    match random.below(8) {
        0 | 1 => anywhere(random),
        2 => around(Moment(HALF), random),
        _ => around(TOP, random),
    }
}

/// An age that a stored time may have, and which is far beyond every limit but that.
pub fn long_ago(random: &mut Random) -> u32 {
    let any = HALF / 2 + random.below(HALF as usize / 2) as u32;
    random.one_of(&[LONGEST_STEP, LONGEST_STEP - 1, any])
}

/// A moment that is before another one, often as little or as much as can be.
pub fn earlier(than: Moment, random: &mut Random) -> Moment {
    let any = 1 + random.below(HALF as usize) as u32;
    than - random.one_of(&[1, 1, 2, HALF, HALF, LONGEST_STEP, any])
}

/// A moment that is stored where no later one than the last accepted may be: it is later, or half of all times away, or
/// just as old as may be.
pub fn stored_late(last: Moment, random: &mut Random) -> Moment {
    let any = 1 + random.below(HALF as usize) as u32;
    last + random.one_of(&[1, 1, HALF, HALF, HALF + 1, any])
}

/// How the times of a history go on.
#[derive(Clone, Copy)]
pub struct Pace {
    /// Of 16 times, how many are at the limit of an age.
    pub at_limits: usize,
    /// Of 64 times, how many are far ahead.
    pub leaps: usize,
}

impl Pace {
    /// For calls that move no time on.
    pub const READING: Pace = Pace { at_limits: 9, leaps: 4 };

    /// A moment that follows the last accepted one; `limit` is a moment at which some age is at its limit.
    pub fn next(self, last: Moment, limit: Moment, random: &mut Random) -> Moment {
        if random.below(64) < self.leaps {
            return leap(last, random);
        }
        if random.below(16) < self.at_limits {
            return if limit.follows(last) { limit } else { last };
        }
        let little = random.below(3000) as u32;
        last + random.one_of(&[0, 0, 1, little])
    }
}

/// As far ahead as a step may go, or to where a history may start. From there it is not far to the top: two leaps pass
/// it.
fn leap(last: Moment, random: &mut Random) -> Moment {
    let (farthest, other) = (last + LONGEST_STEP, start(random));
    let chosen = random.one_of(&[farthest, farthest, last + (LONGEST_STEP - 1), other, other, other]);
    if chosen.follows(last) {
        chosen
    } else {
        farthest
    }
}
