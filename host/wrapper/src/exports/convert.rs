//! The export that converts an old plan.
#![allow(unsafe_code)]

use crate::Refusal;

// SAFETY: this is the signature of `coreshare.h`, and the struct has its layout.
unsafe extern "C" {
    fn cs_convert(plan: *const u8, plan_len: usize, out: *mut u8, out_len: usize) -> Refusal;
}

/// Writes the plan with every Deferrable guest made Periodic to the output. Refusals: those of reading, then 12.
pub fn convert(plan: &[u8], out: &mut [u8]) -> Refusal {
    let (out, room) = (out.as_mut_ptr(), out.len());
    // SAFETY: the plan is readable and the output ours alone, each for its length during the call; they do not
    // overlap, and nothing keeps them.
    unsafe { cs_convert(plan.as_ptr(), plan.len(), out, room) }
}
