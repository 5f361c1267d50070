//! The two sides that are compared, behind the same signatures.

use reference::amendment::{self, Located};
use reference::choice::{self, Chosen};
use reference::convert;
use reference::dispatcher::{self, Dispatcher, Released, Run, Start, Ticked};
use reference::log::{self, LogEntries};
use reference::order::{self, Ordered};
use reference::plan::{self, Guest, Plan, Read, Refusal};
use reference::salvage::{self, Salvaged};
use reference::statement::{self, Stated, Statement};
use reference::verdict::{self, Verdict};

/// One function for each export.
#[derive(Clone, Copy)]
pub struct Side {
    pub read: fn(&[u8]) -> Read,
    pub check: fn(&Plan) -> Refusal,
    pub write: fn(&Guest, u32, &mut [u8]) -> Refusal,
    pub find: fn(&[u8], u32) -> Refusal,
    pub guest_verdict: fn(&Plan, u32) -> Verdict,
    pub task_verdict: fn(&Plan, u32, u32) -> Verdict,
    pub accept: fn(&Plan) -> Verdict,
    pub smallest_capacity: fn(&Plan, u32) -> Verdict,
    pub fresh: fn(&Plan) -> Start,
    pub release: fn(&Dispatcher, u32, u32) -> Released,
    pub sheet: fn(&Dispatcher, &[u64], &mut [u32]) -> Released,
    pub tick: fn(&Dispatcher) -> Ticked,
    pub run: fn(&Dispatcher, u32) -> Run,
    pub amended_find: fn(&[u8], &[u8], u32) -> Located,
    pub amended_guest_verdict: fn(&[u8], &[u8], u32) -> Verdict,
    pub amended_task_verdict: fn(&[u8], &[u8], u32, u32) -> Verdict,
    pub amended_accept: fn(&[u8], &[u8]) -> Verdict,
    pub amended_smallest_capacity: fn(&[u8], &[u8], u32) -> Verdict,
    pub statement: fn(&Statement, &[u8], &[u8]) -> Stated,
    pub write_log: fn(&LogEntries, &mut [u8]) -> Refusal,
    pub salvage: fn(&[u8], &mut [u8]) -> Salvaged,
    pub order: fn(&Plan, u32) -> Ordered,
    pub convert: fn(&[u8], &mut [u8]) -> Refusal,
    pub least_capacities: fn(&Plan) -> Chosen,
}

/// The reference: the documents' sentences in plain Rust.
pub const REFERENCE: Side = Side {
    read: plan::read,
    check: plan::check,
    write: plan::write,
    find: plan::find,
    guest_verdict: verdict::guest_verdict,
    task_verdict: verdict::task_verdict,
    accept: verdict::accept,
    smallest_capacity: verdict::smallest_capacity,
    fresh: dispatcher::fresh,
    release: dispatcher::release,
    sheet: dispatcher::sheet,
    tick: dispatcher::tick,
    run: dispatcher::run,
    amended_find: amendment::find,
    amended_guest_verdict: amendment::guest_verdict,
    amended_task_verdict: amendment::task_verdict,
    amended_accept: amendment::accept,
    amended_smallest_capacity: amendment::smallest_capacity,
    statement: statement::state,
    write_log: log::write,
    salvage: salvage::salvage,
    order: order::order,
    convert: convert::convert,
    least_capacities: choice::least_capacities,
};
