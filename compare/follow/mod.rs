//! Following: which of two beacons heard in one slot (request 112 of document 02).

pub mod calls;
pub mod check;
pub mod choice;
mod drafts;
mod hostile;
mod pairs;
mod ranks;
mod refusals;
