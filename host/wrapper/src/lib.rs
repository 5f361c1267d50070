//! Safe calls of the core-sharing library.
//!
//! On one core, up to 8 guests share the time, each with up to 16 tasks. The library reads and
//! writes plan blocks, judges guests and tasks, searches the smallest capacity, does the same for a
//! standing plan with amendments, proposes an order for a guest's tasks, chooses a plan's least
//! capacities, dispatches, states the finished jobs of a log, salvages a damaged plan file, and
//! converts an old plan's Deferrable guests. Every rule stands in document 01, as the requests P1 to
//! P13 of document 02 change it, and that of [`Plan::least_capacities`] with it; a refusal carries
//! document 01's number and place.
//!
//! The root of this crate has the calls as Rust has them, with `Result` and enums. [`exports`] has
//! the same calls with the outcome whole, field by field as it crosses the C interface.
//!
//! ```
//! use coreshare::{Guest, GuestVerdict, Plan, TaskVerdict};
//!
//! let plan = Plan::new(&[
//!     Guest::new(7, 2, 5, &[[1, 20, 20]]),
//!     Guest::new(9, 8, 20, &[[10, 50, 50], [8, 100, 100]]),
//! ]);
//! assert_eq!(plan.guest_verdict(9), Ok(GuestVerdict::Fitted(14)));
//! assert_eq!(plan.task_verdict(9, 2), Ok(TaskVerdict::Met(80)));
//! assert_eq!(plan.accepted(), Ok(true));
//! ```
#![no_std]
#![deny(unsafe_code)]

mod amended;
mod choice;
mod convert;
mod dispatcher;
pub mod exports;
mod order;
mod plan;
mod records;
mod salvage;
mod statement;

pub use amended::{
    Of, amended_accept, amended_block, amended_find, amended_guest_verdict,
    amended_smallest_capacity, amended_task_verdict,
};
pub use convert::convert;
pub use dispatcher::{Progress, Tick, pair};
pub use plan::{BLOCK, GuestVerdict, TaskVerdict, find, mark};
pub use records::{
    Answer, Chosen, Dispatcher, Fate, Guest, Located, LogEntries, LogEntry, Ordered, Plan, Read,
    Refusal, Released, Run, RunIn, Salvaged, Start, Stated, Statement, TickIn, Ticked, Verdict,
};
pub use salvage::{BlockFate, Fates, NotSalvaged, Salvage, salvage};
pub use statement::{Line, MOST_JOBS, Passed, PassedOver, write_log};
