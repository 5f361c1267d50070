//! The exports that take a standing plan and an amendment sheet, both as blocks.
//!
//! Each refuses the pair first: the plan's as in reading; then the sheet's 1 and, block by block, 2, 3 (kind
//! alone), 4, 5, 6; then 16. The place of a sheet's refusal is the position in the sheet.
#![allow(unsafe_code)]

use crate::{Located, Verdict};

// SAFETY: these are the signatures of `coreshare.h`, and the structs have its layout.
unsafe extern "C" {
    fn cs_amended_find(
        plan: *const u8,
        plan_length: usize,
        sheet: *const u8,
        sheet_length: usize,
        id: u32,
    ) -> Located;
    fn cs_amended_guest_verdict(
        plan: *const u8,
        plan_length: usize,
        sheet: *const u8,
        sheet_length: usize,
        id: u32,
    ) -> Verdict;
    fn cs_amended_task_verdict(
        plan: *const u8,
        plan_length: usize,
        sheet: *const u8,
        sheet_length: usize,
        id: u32,
        task: u32,
    ) -> Verdict;
    fn cs_amended_accept(
        plan: *const u8,
        plan_length: usize,
        sheet: *const u8,
        sheet_length: usize,
    ) -> Verdict;
    fn cs_amended_smallest_capacity(
        plan: *const u8,
        plan_length: usize,
        sheet: *const u8,
        sheet_length: usize,
        id: u32,
    ) -> Verdict;
}

/// Where a guest's block stands, in the sheet or in the plan. Refusals: those of the pair, then 7.
pub fn amended_find(plan: &[u8], sheet: &[u8], id: u32) -> Located {
    // SAFETY: both slices are readable for their lengths during the call, and nothing keeps them.
    unsafe { cs_amended_find(plan.as_ptr(), plan.len(), sheet.as_ptr(), sheet.len(), id) }
}

/// As [`guest_verdict`](super::guest_verdict) says it. Refusals: those of the pair, then 7.
pub fn amended_guest_verdict(plan: &[u8], sheet: &[u8], id: u32) -> Verdict {
    let (sheet, length) = (sheet.as_ptr(), sheet.len());
    // SAFETY: both slices are readable for their lengths during the call, and nothing keeps them.
    unsafe { cs_amended_guest_verdict(plan.as_ptr(), plan.len(), sheet, length, id) }
}

/// As [`task_verdict`](super::task_verdict) says it. Refusals: those of the pair, then 7, 8.
pub fn amended_task_verdict(plan: &[u8], sheet: &[u8], id: u32, task: u32) -> Verdict {
    let (sheet, length) = (sheet.as_ptr(), sheet.len());
    // SAFETY: both slices are readable for their lengths during the call, and nothing keeps them.
    unsafe { cs_amended_task_verdict(plan.as_ptr(), plan.len(), sheet, length, id, task) }
}

/// As [`accept`](super::accept) says it. Refusals: those of the pair.
pub fn amended_accept(plan: &[u8], sheet: &[u8]) -> Verdict {
    // SAFETY: both slices are readable for their lengths during the call, and nothing keeps them.
    unsafe { cs_amended_accept(plan.as_ptr(), plan.len(), sheet.as_ptr(), sheet.len()) }
}

/// As [`smallest_capacity`](super::smallest_capacity) says it. Refusals: those of the pair, then 7, 11.
pub fn amended_smallest_capacity(plan: &[u8], sheet: &[u8], id: u32) -> Verdict {
    let (sheet, length) = (sheet.as_ptr(), sheet.len());
    // SAFETY: both slices are readable for their lengths during the call, and nothing keeps them.
    unsafe { cs_amended_smallest_capacity(plan.as_ptr(), plan.len(), sheet, length, id) }
}
