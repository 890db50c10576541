//! Routes: a unit's table of them, its updates, and the data and beacons that it sends on.

mod beacons;
pub mod calls;
mod cases;
pub mod check;
mod comparisons;
pub mod direct;
pub mod drafts;
mod forwards;
mod hostile;
mod pages;
mod refusals;
mod relays;
mod story;
pub mod table;
mod time_left;
