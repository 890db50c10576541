//! Sheets: whether distant units may share data slots as planners propose (request 114 of document 02).

pub mod calls;
mod cases;
pub mod check;
pub mod direct;
pub mod drafts;
mod hostile;
mod limits;
mod play;
mod proposals;
mod refusals;
mod sweeps;
pub mod verdict;
