//! The rules once more, in plain Rust and written from the rules alone: what the proved library is compared with.
mod assay;
mod cavity;
mod geometry;
mod report;
mod survey;
mod wholeness;
mod words;

pub use report::report;
pub use survey::{Refusal, Survey};
