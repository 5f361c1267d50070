//! The exports of a log of finished jobs: the statement over it, and its writer.
#![allow(unsafe_code)]

use crate::{LogEntries, Refusal, Stated, Statement};

// SAFETY: these are the signatures of `coreshare.h`, and the structs have its layout.
unsafe extern "C" {
    fn cs_statement(
        running: Statement,
        plan: *const u8,
        plan_length: usize,
        log: *const u8,
        log_length: usize,
    ) -> Stated;
    fn cs_write_log(jobs: LogEntries, buffer: *mut u8, length: usize) -> Refusal;
}

/// Adds a log to the running statement. Refusals: those of reading the plan, 14, then 1 for the log's length.
/// A block is passed over by 2, 3, 18, 5, 7, 8 or 19.
pub fn statement(running: &Statement, plan: &[u8], log: &[u8]) -> Stated {
    let (log, length) = (log.as_ptr(), log.len());
    // SAFETY: both slices are readable for their lengths during the call, and nothing keeps them.
    unsafe { cs_statement(*running, plan.as_ptr(), plan.len(), log, length) }
}

/// Writes a log block of these jobs to the first 512 bytes. Refusals: 12, 18.
pub fn write_log(jobs: &LogEntries, buffer: &mut [u8]) -> Refusal {
    // SAFETY: the slice is ours alone for its length during the call, and nothing keeps it.
    unsafe { cs_write_log(*jobs, buffer.as_mut_ptr(), buffer.len()) }
}
