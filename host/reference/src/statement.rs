//! A monthly statement of finished jobs: P10 of document 02, sentence by sentence.

#[cfg(test)]
mod tests;

use crate::dispatcher::{PLACES, place_of};
use crate::log::{LONGEST_AGE, LogEntry, MOST_JOBS, read as read_log};
use crate::plan::{BLOCK, Plan, Refusal, read, task_place};

/// The most blocks that a statement counts.
pub const MOST_BLOCKS: u64 = 1_000_000;

/// The widest margin, to either side.
pub const WIDEST_MARGIN: i64 = 999_999;

/// The blocks counted, and for each task the jobs counted, the longest age, how many were late, and the exact sum of
/// the margins; task `t` of guest `g`, both from 0, at `16 * g + t`.
#[derive(Clone, Copy, Debug, PartialEq, Eq)]
pub struct Statement {
    pub blocks: u64,
    pub margins: [i64; PLACES],
    pub jobs: [u32; PLACES],
    pub longest: [u32; PLACES],
    pub late: [u32; PLACES],
}

/// The next statement, and beside it how many blocks of this log were passed over, with the position in this log, from
/// 0, and the number of the first, both 0 if none.
#[derive(Clone, Copy, Debug, PartialEq, Eq)]
pub struct Stated {
    pub refusal: Refusal,
    pub statement: Statement,
    pub passed: u64,
    pub position: u64,
    pub number: u32,
}

impl Statement {
    /// Nothing is counted yet.
    pub const EMPTY: Statement = Statement {
        blocks: 0,
        margins: [0; PLACES],
        jobs: [0; PLACES],
        longest: [0; PLACES],
        late: [0; PLACES],
    };
}

/// Each call takes the running statement and the plan. Refused whole, the statement comes back unchanged, and nothing
/// was passed over.
pub fn state(running: &Statement, plan: &[u8], log: &[u8]) -> Stated {
    let result = not_refused_whole(running, plan, log);
    let mut outcome = Stated {
        refusal: Refusal::of(&result),
        statement: *running,
        passed: 0,
        position: 0,
        number: 0,
    };
    let Ok(plan) = result else {
        return outcome;
    };
    for (position, block) in (0..).zip(log.chunks(BLOCK)) {
        match take(&outcome.statement, &plan, block) {
            Ok(next) => outcome.statement = next,
            Err(number) => outcome.pass_over(position, number),
        }
    }
    outcome
}

impl Stated {
    /// A bad block is passed over; the first is told.
    fn pass_over(&mut self, position: u64, number: u32) {
        if self.passed == 0 {
            self.position = position;
            self.number = number;
        }
        self.passed += 1;
    }
}

/// Refusals of a whole call: the plan's reading order, then 14, then 1 for a log length that is no multiple of 512.
fn not_refused_whole(running: &Statement, plan: &[u8], log: &[u8]) -> Result<Plan, Refusal> {
    let read = read(plan);
    if read.refusal != Refusal::NONE {
        return Err(read.refusal);
    }
    if !in_range(running) {
        return Err(Refusal::new(14, 0));
    }
    if !log.len().is_multiple_of(BLOCK) {
        return Err(Refusal::new(1, 0));
    }
    Ok(read.plan)
}

/// At most 1,000,000 blocks counted, and all 128 lines in their ranges; none is asked to be zero.
pub fn in_range(statement: &Statement) -> bool {
    statement.blocks <= MOST_BLOCKS && (0..PLACES).all(|line| line_in_range(statement, line))
}

/// At most 41 jobs for each block, no more late than jobs, a longest age of at most 1,000,000, and a sum of margins of
/// at most 999,999 for each job in size.
fn line_in_range(statement: &Statement, line: usize) -> bool {
    let (jobs, late) = (statement.jobs[line], statement.late[line]);
    let most_jobs = MOST_JOBS as u128 * u128::from(statement.blocks);
    let most_margins = i128::from(WIDEST_MARGIN) * i128::from(jobs);
    u128::from(jobs) <= most_jobs
        && late <= jobs
        && statement.longest[line] <= LONGEST_AGE
        && i128::from(statement.margins[line]).abs() <= most_margins
}

/// The statement with one block counted, or the number that the block is passed over by: 2, 3, 18, 5; then 7 if any
/// guest is not in the plan; then 8 if any task is not in its guest; then 19, a block past the millionth.
pub fn take(statement: &Statement, plan: &Plan, block: &[u8]) -> Result<Statement, u32> {
    let entries = read_log(block)?;
    for entry in &entries {
        plan.place_of(entry.guest).map_err(number)?;
    }
    for entry in &entries {
        place_in(plan, entry).map_err(number)?;
    }
    if statement.blocks >= MOST_BLOCKS {
        return Err(19);
    }
    let mut next = *statement;
    next.blocks += 1;
    for entry in &entries {
        let (guest, task) = place_in(plan, entry).map_err(number)?;
        let deadline = plan.guests[guest].deadline[task];
        next.count(place_of(guest, task), deadline, entry.age);
    }
    Ok(next)
}

fn number(refusal: Refusal) -> u32 {
    refusal.number
}

/// The places of the guest in the plan and of the task in the guest, or 7 or 8.
pub fn place_in(plan: &Plan, entry: &LogEntry) -> Result<(usize, usize), Refusal> {
    let guest = plan.place_of(entry.guest)?;
    Ok((guest, task_place(&plan.guests[guest], entry.task)?))
}

impl Statement {
    /// One more job of a task; it is late if its age is past the deadline, and its margin is the deadline less the age.
    fn count(&mut self, line: usize, deadline: u32, age: u32) {
        self.jobs[line] += 1;
        self.longest[line] = self.longest[line].max(age);
        if age > deadline {
            self.late[line] += 1;
        }
        self.margins[line] += i64::from(deadline) - i64::from(age);
    }
}
