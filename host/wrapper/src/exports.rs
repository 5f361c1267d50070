//! One safe function for each export, with its outcome whole.

mod amended;
mod convert;
mod lent;
mod placed;
mod salvage;
mod statement;

pub use amended::{
    amended_accept, amended_find, amended_guest_verdict, amended_smallest_capacity,
    amended_task_verdict,
};
pub use convert::convert;
pub use lent::{accept_in, guest_verdict_in, order_in, smallest_capacity_in, task_verdict_in};
pub use placed::{fresh_in, release_in, run_in, sheet_in, tick_in};
pub use salvage::salvage;
pub use statement::{statement, write_log};

use crate::{
    Chosen, Dispatcher, Guest, Ordered, Plan, Read, Refusal, Released, Run, Start, Ticked, Verdict,
};

/// A plan's records, as they are lent to a call in place.
type Rows = [[u32; 54]; 8];

/// The library's declarations: all that is unsafe is here, in `amended`, in `statement`, in `salvage`, in `convert`, in
/// `lent` and in `placed`.
#[allow(unsafe_code)]
mod library {
    use super::*;

    // SAFETY: these are the signatures of `coreshare.h`, and the structs have its layout. What
    // takes only values is safe to call with any value: no export asks anything of its input.
    unsafe extern "C" {
        fn cs_read(bytes: *const u8, length: usize) -> Read;
        fn cs_find(bytes: *const u8, length: usize, id: u32) -> Refusal;
        fn cs_write(guest: Guest, place: u32, buffer: *mut u8, length: usize) -> Refusal;
        fn cs_sheet(
            dispatcher: Dispatcher,
            pairs: *const u64,
            count: usize,
            answers: *mut u32,
            room: usize,
        ) -> Released;
        pub safe fn cs_check(plan: Plan) -> Refusal;
        pub safe fn cs_guest_verdict(plan: Plan, id: u32) -> Verdict;
        pub safe fn cs_task_verdict(plan: Plan, id: u32, task: u32) -> Verdict;
        pub safe fn cs_accept(plan: Plan) -> Verdict;
        pub safe fn cs_smallest_capacity(plan: Plan, id: u32) -> Verdict;
        pub safe fn cs_order(plan: Plan, id: u32) -> Ordered;
        pub safe fn cs_least_capacities(plan: Plan) -> Chosen;
        pub safe fn cs_fresh(plan: Plan) -> Start;
        pub safe fn cs_release(dispatcher: Dispatcher, id: u32, task: u32) -> Released;
        pub safe fn cs_tick(dispatcher: Dispatcher) -> Ticked;
        pub safe fn cs_run(dispatcher: Dispatcher, ticks: u32) -> Run;
    }

    pub fn read(bytes: &[u8]) -> Read {
        // SAFETY: the slice is readable for its length during the call, and nothing keeps it.
        unsafe { cs_read(bytes.as_ptr(), bytes.len()) }
    }

    pub fn find(bytes: &[u8], id: u32) -> Refusal {
        // SAFETY: the slice is readable for its length during the call, and nothing keeps it.
        unsafe { cs_find(bytes.as_ptr(), bytes.len(), id) }
    }

    pub fn write(guest: Guest, place: u32, buffer: &mut [u8]) -> Refusal {
        // SAFETY: the slice is ours alone for its length during the call, and nothing keeps it.
        unsafe { cs_write(guest, place, buffer.as_mut_ptr(), buffer.len()) }
    }

    pub fn sheet(dispatcher: Dispatcher, pairs: &[u64], answers: &mut [u32]) -> Released {
        let (pairs, count) = (pairs.as_ptr(), pairs.len());
        let (answers, room) = (answers.as_mut_ptr(), answers.len());
        // SAFETY: the pairs are readable and the answers ours alone, each for its length during the
        // call; they do not overlap, and nothing keeps them.
        unsafe { cs_sheet(dispatcher, pairs, count, answers, room) }
    }
}

/// Reads a plan's blocks. Refusals: 1, then block by block 2, 3, 4, 5, 6.
pub fn read(bytes: &[u8]) -> Read {
    library::read(bytes)
}

/// Checks records as a plan. Refusals: 1, then guest by guest 4, 6.
pub fn check(plan: &Plan) -> Refusal {
    library::cs_check(*plan)
}

/// Writes one guest's block to the first 512 bytes. Refusals: 12, 3, 4, 6, 23.
pub fn write(guest: &Guest, place: u32, buffer: &mut [u8]) -> Refusal {
    library::write(*guest, place, buffer)
}

/// The place of a guest's block. Refusals: those of reading, then 7.
pub fn find(bytes: &[u8], id: u32) -> Refusal {
    library::find(bytes, id)
}

/// Verdict 1 fitted, with its response, or 2 unfit. Refusals: those of the records, then 7.
pub fn guest_verdict(plan: &Plan, id: u32) -> Verdict {
    library::cs_guest_verdict(*plan, id)
}

/// Verdict 1 met, with its response, 2 unmet, with its response or 0 if none is at most its period, or 3 unjudged.
/// Refusals: those of the records, 7, 8.
pub fn task_verdict(plan: &Plan, id: u32, task: u32) -> Verdict {
    library::cs_task_verdict(*plan, id, task)
}

/// Verdict 1 accepted or 2 not accepted. Refusals: those of the records.
pub fn accept(plan: &Plan) -> Verdict {
    library::cs_accept(*plan)
}

/// Verdict 1 with the smallest capacity. Refusals: those of the records, then 7, 11.
pub fn smallest_capacity(plan: &Plan, id: u32) -> Verdict {
    library::cs_smallest_capacity(*plan, id)
}

/// The plan with the guest's tasks in an order in which every one of them is met.
/// Refusals: those of the records, then 7, 21, 22.
pub fn order(plan: &Plan, id: u32) -> Ordered {
    library::cs_order(*plan, id)
}

/// The plan with the least capacities at which it is accepted.
/// Refusals: those of the records, then 23, then 11 with the guest's place.
pub fn least_capacities(plan: &Plan) -> Chosen {
    library::cs_least_capacities(*plan)
}

/// A fresh state. Refusals: those of the records, then 23.
pub fn fresh(plan: &Plan) -> Start {
    library::cs_fresh(*plan)
}

/// Releases a task. Refusals: 14, 7, 8, 17, 9, 10.
pub fn release(dispatcher: &Dispatcher, id: u32, task: u32) -> Released {
    library::cs_release(*dispatcher, id, task)
}

/// Releases each pair in order and answers it: 0 for taken, or 7, 8, 17, 9, 10.
/// Refusals of the whole sheet: 14, 15, 12.
pub fn sheet(dispatcher: &Dispatcher, pairs: &[u64], answers: &mut [u32]) -> Released {
    library::sheet(*dispatcher, pairs, answers)
}

/// One tick. Refusal: 14.
pub fn tick(dispatcher: &Dispatcher) -> Ticked {
    library::cs_tick(*dispatcher)
}

/// Ticks until a job finishes or their number is used up. Refusals: 14, 13.
pub fn run(dispatcher: &Dispatcher, ticks: u32) -> Run {
    library::cs_run(*dispatcher, ticks)
}
