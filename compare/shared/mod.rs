//! What every subject shares: how a call is checked, counted and told of, how buffers are lent, and what calls are made
//! of.

pub mod check;
pub mod hostile;
pub mod kept;
pub mod lending;
pub mod moment_drafts;
pub mod moments;
pub mod numbers;
pub mod printing;
pub mod progress;
pub mod random;
pub mod refusal;
pub mod tally;
pub mod units;
