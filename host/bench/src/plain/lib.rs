//! The product's calls as one would write them in plain Rust, to be measured against: fast and
//! idiomatic, with the product's algorithms and its checks, and nothing proved.
#![forbid(unsafe_code)]

pub mod amended;
pub mod block;
pub mod capacity;
mod choice;
pub mod convert;
pub mod dispatcher;
pub mod exports;
pub mod log;
mod order;
pub mod records;
pub mod salvage;
pub mod statement;
mod upward;
pub mod verdict;

#[cfg(test)]
mod tests;

// The tests read the desk's plans from the measuring program's file, which knows this library by its name.
#[cfg(test)]
extern crate self as plain;

pub use dispatcher::Dispatcher;
pub use records::{Guest, Plan, Refusal};
pub use statement::Statement;
