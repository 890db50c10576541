//! Frames: read, written and walked.

pub mod beacons;
pub mod bodies;
pub mod calls;
pub mod check;
mod damaged;
pub mod drafts;
pub mod independent;
pub mod kinds;
mod limits;
mod rules;
