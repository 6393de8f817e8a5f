//! The proved survey library, for Rust programs.
//!
//! The tables are yours: plain records in slices that you lend with each call. A survey itself is four counts. Nothing
//! that you lend is trusted: tables of any content are answered by the rules, and counts that no survey has are
//! refused, so every function here is safe.
mod ffi;
mod record;
mod refusal;
mod report;
mod survey;

pub use record::{Counts, Line, NONE, PointRecord, Reading, ReadingRecord, Statement, TetRecord};
pub use refusal::Refusal;
pub use report::{NoStatement, report};
pub use survey::{Open, Sealed, Site};
