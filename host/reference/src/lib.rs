//! The rules of document 01, and of document 02 as far as it has landed, and that of the least
//! capacities, in plain Rust, sentence by sentence and with no cleverness.
//!
//! It shares no code with the product. Searches scan upward one number at a time, and numbers are
//! wide enough that nothing wraps. The types have the fields of the product's C interface, so that
//! an outcome can be compared whole: answer, next state and every lent byte.
#![forbid(unsafe_code)]

pub mod amendment;
pub mod choice;
pub mod convert;
pub mod dispatcher;
pub mod log;
pub mod order;
pub mod plan;
pub mod salvage;
pub mod samples;
pub mod show;
pub mod statement;
pub mod verdict;
