//! Stored images: written of books, restored, and drawn.

pub mod calls;
mod cases;
pub mod check;
mod drafts;
pub mod files;
mod hostile;
mod stored;
