//! The exports that judge a plan where it lies, and order a guest's tasks there.
#![allow(unsafe_code)]

use super::Rows;
use crate::{Plan, Refusal, Verdict};

// SAFETY: these are the signatures of `coreshare.h`, and the structs have its layout.
unsafe extern "C" {
    fn cs_guest_verdict_in(count: u32, rows: *const Rows, id: u32) -> Verdict;
    fn cs_task_verdict_in(count: u32, rows: *const Rows, id: u32, task: u32) -> Verdict;
    fn cs_accept_in(count: u32, rows: *const Rows) -> Verdict;
    fn cs_smallest_capacity_in(count: u32, rows: *const Rows, id: u32) -> Verdict;
    fn cs_order_in(count: u32, rows: *mut Rows, id: u32) -> Refusal;
}

/// As [`guest_verdict`](super::guest_verdict) says it. Refusals: those of the records, then 7.
pub fn guest_verdict_in(plan: &Plan, id: u32) -> Verdict {
    let rows = (&raw const plan.guests).cast();
    // SAFETY: the records are readable during the call and are words without padding, and nothing keeps them.
    unsafe { cs_guest_verdict_in(plan.count, rows, id) }
}

/// As [`task_verdict`](super::task_verdict) says it. Refusals: those of the records, 7, 8.
pub fn task_verdict_in(plan: &Plan, id: u32, task: u32) -> Verdict {
    let rows = (&raw const plan.guests).cast();
    // SAFETY: as in `guest_verdict_in`.
    unsafe { cs_task_verdict_in(plan.count, rows, id, task) }
}

/// As [`accept`](super::accept) says it. Refusals: those of the records.
pub fn accept_in(plan: &Plan) -> Verdict {
    let rows = (&raw const plan.guests).cast();
    // SAFETY: as in `guest_verdict_in`.
    unsafe { cs_accept_in(plan.count, rows) }
}

/// As [`smallest_capacity`](super::smallest_capacity) says it. Refusals: those of the records, then 7, 11.
pub fn smallest_capacity_in(plan: &Plan, id: u32) -> Verdict {
    let rows = (&raw const plan.guests).cast();
    // SAFETY: as in `guest_verdict_in`.
    unsafe { cs_smallest_capacity_in(plan.count, rows, id) }
}

/// Puts the guest's tasks in an order in which every one of them is met; a refused order leaves the plan as it is.
/// Refusals: those of the records, then 7, 21, 22.
pub fn order_in(plan: &mut Plan, id: u32) -> Refusal {
    let rows = (&raw mut plan.guests).cast();
    // SAFETY: the records are ours alone during the call and are words, of which any will do, and nothing keeps them.
    unsafe { cs_order_in(plan.count, rows, id) }
}
