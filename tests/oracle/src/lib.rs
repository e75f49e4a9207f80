//! An independent implementation of document 01, "Scope of work and exact rules": "the paper",
//! and of the generator, the sheets and the excess of document 02, "Tickets in the order received".
//!
//! It is written from these two alone and shares nothing with the proved code.
//! Every call lends its buffers as the proved calls do: what is not written stays the same,
//! and a refusal leaves everything as it was.

pub mod call;
pub mod convert;
pub mod definitions;
pub mod dispatch;
pub mod generator;
pub mod numbers;
pub mod pattern;
pub mod program;
pub mod reader;
pub mod refusal;
pub mod schedule;
pub mod sheet;
pub mod table;
pub mod verdict;
pub mod writer;

pub use call::tile_check;
pub use generator::{draw, generate};
pub use pattern::pattern;
pub use reader::read;
pub use refusal::Refusal;
pub use schedule::{schedule, Late, Schedule};
pub use sheet::{read_sheet, write_sheet};
pub use table::{Task, HORIZON, LARGEST, MOST_TASKS};
pub use verdict::{verdict, Verdict};
pub use writer::write;

#[cfg(test)]
mod excess_tests;
#[cfg(test)]
mod sheet_tests;
#[cfg(test)]
mod tests;
