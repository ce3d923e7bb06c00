//! Settles a month file: from the bytes of the file to the bytes of its
//! statement, or of one line of refusal.
//!
//! Written from docs/ alone, as an independent check of the proved program.
//! [`generate`] makes month files, sound and unsound, to compare the two with.

pub mod assessment;
pub mod calendar;
pub mod file;
pub mod generate;
pub mod money;
pub mod refusal;
pub mod statement;

pub use statement::settle;
