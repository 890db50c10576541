//! The comparison of polls: what the request says, case by case, hostile buffers, then random histories.

use crate::poll::{cases, histories, hostile};
use crate::shared::check::{Agreement, Check};
use crate::shared::progress::Progress;
use crate::Options;

/// The longest history, in steps.
const MOST_STEPS: usize = 400;

pub fn check(check: &mut Check, options: &Options, progress: &mut Progress) -> Agreement {
    cases::check(check)?;
    hostile::check(check)?;
    check.runs(options.steps, MOST_STEPS, progress, histories::history)
}
