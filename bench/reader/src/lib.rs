//! A second reading of document 01, written from the paper alone.
//!
//! It serves only for comparison: plain safe code, tables in vectors, sets as
//! sets, Reach by a walk over a graph. Readings are answered in three ways that
//! must agree:
//!
//! * [`hedge`]: the events are first made into a hedge in memory, and the hedge
//!   is evaluated; a settled level is jumped over in one go. What is compared
//!   with programs and calls is compared by this way, which has nothing of the
//!   structure of a streaming reader;
//! * [`stream`]: event by event, as "Calls and numbers" tells it;
//! * [`positions`]: full reading from the first event as a table over the places,
//!   "passed over" marked by its definition, and skipping predicted from the
//!   marks.

#![forbid(unsafe_code)]

pub mod book;
pub mod calls;
pub mod check;
pub mod hedge;
pub mod numbers;
pub mod positions;
pub mod reading;
pub mod rule;
pub mod stream;
pub mod writer;

pub use book::Book;
pub use calls::{finish, open, whole, Opening};
pub use check::check_program;
pub use hedge::feed;
pub use numbers::Refusal;
pub use reading::{End, Fed, Level, Outcome, Reading, Report, Verdict};
pub use rule::{Class, Rule};
pub use writer::write_rule;
