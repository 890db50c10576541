//! A unit's life: its states, from event to event and from tick to tick.

pub mod calls;
pub mod check;
mod limits;
mod lives;
mod states;
