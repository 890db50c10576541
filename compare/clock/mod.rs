//! The clock: its offset, from beacon to beacon.

pub mod calls;
pub mod check;
mod drift;
mod limits;
mod runs;
