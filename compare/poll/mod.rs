//! Polls: what a unit heard of others that would be manager, and who wins (request 109 of document 02).

pub mod calls;
mod cases;
pub mod check;
pub mod drafts;
pub mod election;
mod histories;
mod hostile;
mod out_of_rule;
mod refusals;
mod story;
