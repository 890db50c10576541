//! The comparison of a unit's states: every limit of the paper in turn, then random lives.

use crate::life::calls::{Asked, StateCall};
use crate::life::states::*;
use crate::life::{limits, lives};
use crate::shared::check::{Agreement, Check, Difference};
use crate::shared::moments::{Moment, HALF, LONGEST_STEP};
use crate::shared::progress::Progress;
use crate::Options;

/// Superframes at and next to every limit, and one that a unit would have.
pub const SUPERFRAMES: [u32; 8] =
    [0, 1, 2, 1_000, LONGEST_SUPERFRAME_MS - 1, LONGEST_SUPERFRAME_MS, LONGEST_SUPERFRAME_MS + 1, u32::MAX];

/// How many random steps a life has at most before another one begins.
const LONGEST_LIFE: usize = 60;

pub fn check(check: &mut Check, options: &Options, progress: &mut Progress) -> Agreement {
    limits::check(check)?;
    check.runs(options.steps, LONGEST_LIFE, progress, lives::random_life)
}

/// Asks both over this buffer, and gives back what it then holds.
pub fn ask(check: &mut Check, state: &[u8], asked: Asked, time: Moment) -> Result<Vec<u8>, Difference> {
    check.put(&StateCall { state, asked, time }).map(|answer| answer.left.state)
}

/// Ages at and next to every limit that the paper gives, and at those of a step.
pub fn ages(superframe_ms: u32) -> impl Iterator<Item = u32> {
    let silence = SUPERFRAMES_OF_SILENCE * u64::from(superframe_ms);
    let silence = silence.min(u64::from(LONGEST_STEP)) as u32;
    let limits = [JOINING_MS, DISCOVERY_MS, RECOVERY_MS, silence.max(1)];
    [0, HALF, u32::MAX].into_iter().chain(limits.into_iter().flat_map(|limit| [limit - 1, limit, limit + 1]))
}
