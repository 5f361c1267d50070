//! The statement of finished jobs and its log, behind the library's interface.
#![allow(improper_ctypes_definitions)] // slices, as the library takes them: a pointer and a length

use crate::log::LogEntries;
use crate::{Refusal, Statement};

#[repr(C)]
pub struct Stated {
    pub refusal: Refusal,
    pub statement: Statement,
    pub passed: u64,
    pub position: u64,
    pub number: u32,
}

#[inline(never)]
pub extern "C" fn statement(mut running: Statement, plan: &[u8], log: &[u8]) -> Stated {
    let result = running.extend(plan, log);
    let passed = result.unwrap_or_default();
    let (position, number) = passed.first.unwrap_or_default();
    Stated {
        refusal: result.err().unwrap_or_default(),
        statement: running,
        passed: passed.blocks,
        position,
        number,
    }
}

#[inline(never)]
pub extern "C" fn write_log(jobs: LogEntries, buffer: &mut [u8]) -> Refusal {
    jobs.write(buffer).err().unwrap_or_default()
}
