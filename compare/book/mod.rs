//! Books: site plans, member books and schedules.

pub mod calls;
mod cases;
pub mod check;
pub mod drafts;
pub mod hostile;
pub mod members;
mod refusals;
pub mod site;
mod story;
pub mod sweeps;
