//! The structs of a log of finished jobs and of the statement over it.

use super::Refusal;

/// A finished job as a log has it. Guests and tasks are written as they are; a statement passes a block over that names
/// one that is not in its plan.
#[repr(C)]
#[derive(Clone, Copy, Debug, Default, PartialEq, Eq)]
pub struct LogEntry {
    /// The guest's id.
    pub guest: u32,
    /// The task's number from 1.
    pub task: u32,
    /// The job's age in ticks, 1 to 1,000,000.
    pub age: u32,
}

/// The jobs for one log block. Entries past `count` are not looked at.
#[repr(C)]
#[derive(Clone, Copy, Debug, PartialEq, Eq)]
pub struct LogEntries {
    /// The number of jobs, 1 to 41.
    pub count: u32,
    pub entries: [LogEntry; 41],
}

/// The running statement of finished jobs. Task `t` of guest `g`, both from 0, has its line at `16 * g + t`.
///
/// It has no padding, so that it may be kept as its bytes. All 128 lines are held to their ranges, those of no task in
/// the plan too.
#[repr(C)]
#[derive(Clone, Copy, Debug, PartialEq, Eq)]
pub struct Statement {
    /// The log blocks counted, at most 1,000,000.
    pub blocks: u64,
    /// Each task's sum of the margins, deadline less age: at most 999,999 for each job in size.
    pub margins: [i64; 128],
    /// Each task's jobs, at most 41 for each block.
    pub jobs: [u32; 128],
    /// The longest age of each task's jobs, at most 1,000,000.
    pub longest: [u32; 128],
    /// How many of each task's jobs were late, at most as many as there were.
    pub late: [u32; 128],
}

/// What a log adds to a statement. That of a refused call is unchanged, and the last three numbers are 0.
#[repr(C)]
#[derive(Clone, Copy, Debug, PartialEq, Eq)]
pub struct Stated {
    pub refusal: Refusal,
    pub statement: Statement,
    /// How many blocks were passed over.
    pub passed: u64,
    /// The position of the first of them in this log, from 0; 0 if none was.
    pub position: u64,
    /// The number that the first of them is passed over by: 2, 3, 18, 5, 7, 8 or 19; 0 if none was.
    pub number: u32,
}
