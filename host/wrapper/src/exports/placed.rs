//! The exports that change a state where it lies.
#![allow(unsafe_code)]

use super::Rows;
use crate::{Dispatcher, Refusal, RunIn, TickIn};

// SAFETY: these are the signatures of `coreshare.h`, and the structs have its layout.
unsafe extern "C" {
    fn cs_fresh_in(
        count: u32,
        rows: *const Rows,
        left: *mut [u32; 8],
        position: *mut [u32; 8],
        rest: *mut [u32; 128],
        wait: *mut [u32; 128],
        age: *mut [u32; 128],
        usage: *mut [u64; 17],
    ) -> Refusal;
    fn cs_release_in(
        count: u32,
        rows: *const Rows,
        left: *const [u32; 8],
        position: *const [u32; 8],
        rest: *mut [u32; 128],
        wait: *mut [u32; 128],
        age: *mut [u32; 128],
        id: u32,
        task: u32,
    ) -> u32;
    fn cs_sheet_in(
        count: u32,
        rows: *const Rows,
        left: *const [u32; 8],
        position: *const [u32; 8],
        rest: *mut [u32; 128],
        wait: *mut [u32; 128],
        age: *mut [u32; 128],
        pairs: *const u64,
        pair_count: usize,
        answers: *mut u32,
        room: usize,
    ) -> u32;
    fn cs_tick_in(
        count: u32,
        rows: *const Rows,
        left: *mut [u32; 8],
        position: *mut [u32; 8],
        rest: *mut [u32; 128],
        wait: *mut [u32; 128],
        age: *mut [u32; 128],
        usage: *mut [u64; 17],
    ) -> TickIn;
    fn cs_run_in(
        count: u32,
        rows: *const Rows,
        left: *mut [u32; 8],
        position: *mut [u32; 8],
        rest: *mut [u32; 128],
        wait: *mut [u32; 128],
        age: *mut [u32; 128],
        usage: *mut [u64; 17],
        ticks: u32,
    ) -> RunIn;
}

/// A fresh start of the plan that stands in the state; a refused one leaves it as it is. Refusals: those of the records,
/// then 23.
pub fn fresh_in(dispatcher: &mut Dispatcher) -> Refusal {
    let d = dispatcher;
    let rows = (&raw const d.plan.guests).cast();
    // SAFETY: the fields are ours alone during the call and do not overlap, the records are words without padding, and
    // nothing keeps them.
    unsafe {
        cs_fresh_in(
            d.plan.count,
            rows,
            &mut d.left,
            &mut d.position,
            &mut d.rest,
            &mut d.wait,
            &mut d.age,
            &mut d.usage,
        )
    }
}

/// Releases a task: the number of its refusal, or 0. Refusals: 14, 7, 8, 17, 9, 10.
pub fn release_in(dispatcher: &mut Dispatcher, id: u32, task: u32) -> u32 {
    let d = dispatcher;
    let rows = (&raw const d.plan.guests).cast();
    // SAFETY: as in `fresh_in`.
    unsafe {
        cs_release_in(
            d.plan.count,
            rows,
            &d.left,
            &d.position,
            &mut d.rest,
            &mut d.wait,
            &mut d.age,
            id,
            task,
        )
    }
}

/// Releases each pair in order and answers it: the number of the sheet's refusal, or 0. Refusals of the whole sheet: 14,
/// 15, 12.
pub fn sheet_in(dispatcher: &mut Dispatcher, pairs: &[u64], answers: &mut [u32]) -> u32 {
    let d = dispatcher;
    let rows = (&raw const d.plan.guests).cast();
    let (pairs, count) = (pairs.as_ptr(), pairs.len());
    let (answers, room) = (answers.as_mut_ptr(), answers.len());
    // SAFETY: as in `fresh_in`; the pairs are readable and the answers ours alone, each for its length.
    unsafe {
        cs_sheet_in(
            d.plan.count,
            rows,
            &d.left,
            &d.position,
            &mut d.rest,
            &mut d.wait,
            &mut d.age,
            pairs,
            count,
            answers,
            room,
        )
    }
}

/// One tick. Refusal: 14.
pub fn tick_in(dispatcher: &mut Dispatcher) -> TickIn {
    let d = dispatcher;
    let rows = (&raw const d.plan.guests).cast();
    // SAFETY: as in `fresh_in`.
    unsafe {
        cs_tick_in(
            d.plan.count,
            rows,
            &mut d.left,
            &mut d.position,
            &mut d.rest,
            &mut d.wait,
            &mut d.age,
            &mut d.usage,
        )
    }
}

/// Ticks until a job finishes or their number is used up. Refusals: 14, 13.
pub fn run_in(dispatcher: &mut Dispatcher, ticks: u32) -> RunIn {
    let d = dispatcher;
    let rows = (&raw const d.plan.guests).cast();
    // SAFETY: as in `fresh_in`.
    unsafe {
        cs_run_in(
            d.plan.count,
            rows,
            &mut d.left,
            &mut d.position,
            &mut d.rest,
            &mut d.wait,
            &mut d.age,
            &mut d.usage,
            ticks,
        )
    }
}
