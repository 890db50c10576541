//! The comparison of the clock's step: every limit of the paper in turn, then random runs.

use crate::clock::calls::Step;
use crate::clock::{limits, runs};
use crate::frames::drafts::Draft;
use crate::frames::kinds::{kind_of_type, SHORT_BEACON};
use crate::shared::check::{Agreement, Check, Difference};
use crate::shared::moments::{Moment, HALF};
use crate::shared::progress::Progress;
use crate::Options;

/// The offset after a step.
pub type Offset = Result<u32, Difference>;

/// A drift beyond every limit: each one up to it, either way, is tried, and some further ones.
pub const NEAR: i32 = 110;
pub const FAR: [i32; 8] = [1_000, -1_000, 65_536, -65_536, i32::MAX, i32::MAX - 1, i32::MIN, i32::MIN + 1];

/// Numbers at and next to the limits of 32 bits, with a sign and without.
pub const CORNERS: [u32; 7] = [0, 1, 1_000, HALF - 1, HALF, u32::MAX - 1, u32::MAX];

/// Delays at and next to the limits of the 16 bits that a short beacon has for its own.
const SHORT_DELAYS: [u32; 7] = [0, 1, 1_000, 0x7FFF, 0x8000, 0xFFFE, 0xFFFF];

/// How many random steps a clock goes at most before another one begins.
const LONGEST_RUN: usize = 60;

pub fn check(check: &mut Check, options: &Options, progress: &mut Progress) -> Agreement {
    limits::check(check)?;
    check.runs(options.steps, LONGEST_RUN, progress, runs::random_run)
}

/// Puts a step to both, and gives back the offset after it.
pub fn step(check: &mut Check, offset: u32, local_time: Moment, network: u16, frame: &[u8]) -> Offset {
    check.put(&Step { offset, local_time, network, frame }).map(|answer| answer.left.offset)
}

/// Delays at and next to the limits of what a beacon of this type can tell of.
pub fn delays(code: u8) -> [u32; 7] {
    match code {
        SHORT_BEACON => SHORT_DELAYS,
        _ => CORNERS,
    }
}

/// A beacon of this type, within every rule.
pub fn beacon(check: &mut Check, code: u8, original_time: Moment, delay: u32) -> Draft {
    let mut draft = Draft::new(kind_of_type(code), &mut check.random);
    draft.set("original time", original_time.0);
    draft.set("delay", delay);
    draft
}

pub fn network_of(draft: &Draft) -> u16 {
    draft.numbers[draft.kind.place("network")] as u16
}
