//! Wrong statements of finished jobs, each of which the comparison of logs alone must find.

#[path = "statements/counting.rs"]
mod counting;
#[path = "statements/orders.rs"]
mod orders;
#[path = "statements/passing.rs"]
mod passing;
#[path = "statements/ranges.rs"]
mod ranges;
#[path = "statements/refusals.rs"]
mod refusals;
#[path = "statements/writer.rs"]
mod writer;

use compare::session::Session;
use compare::side::{REFERENCE, Side};
use compare::statements;
use reference::log::{LogEntry, read as read_log};
use reference::plan::{BLOCK, Plan, read};
use reference::statement::{Stated, Statement, place_in, state, take};

/// What small and some random logs show of a side.
fn compared(side: Side) -> Session {
    let mut session = Session::new(side, 1);
    statements::compare(&mut session);
    for _ in 0..10 {
        statements::round(&mut session);
    }
    session
}

/// Whether nothing wrong is found with a statement, all else being right.
fn passes(wrong: fn(&Statement, &[u8], &[u8]) -> Stated) -> bool {
    let side = Side {
        statement: wrong,
        ..REFERENCE
    };
    compared(side).found_nothing()
}

/// The outcome of a call, but each block of a log that is not refused whole is taken or passed over in another way.
fn by_blocks(
    running: &Statement,
    plan: &[u8],
    log: &[u8],
    block_by: impl Fn(&mut Statement, &Plan, &[u8]) -> Result<(), u32>,
) -> Stated {
    let right = state(running, plan, log);
    if right.refusal.number != 0 {
        return right;
    }
    let plan = read(plan).plan;
    let mut outcome = Stated {
        statement: *running,
        passed: 0,
        position: 0,
        number: 0,
        ..right
    };
    for (position, block) in (0..).zip(log.chunks(BLOCK)) {
        if let Err(number) = block_by(&mut outcome.statement, &plan, block) {
            if outcome.passed == 0 {
                (outcome.position, outcome.number) = (position, number);
            }
            outcome.passed += 1;
        }
    }
    outcome
}

/// The same with another number for a block that is passed over, or 0 for one that is taken; it is told the number that
/// is right. A block that is taken against the rules counts nothing.
fn by_numbers(
    running: &Statement,
    plan: &[u8],
    log: &[u8],
    number_of: impl Fn(u32, &Statement, &Plan, &[u8]) -> u32,
) -> Stated {
    by_blocks(running, plan, log, |statement, plan, block| {
        let right = take(statement, plan, block);
        let number = right.err().unwrap_or(0);
        match number_of(number, statement, plan, block) {
            0 => {
                *statement = right.unwrap_or(*statement);
                Ok(())
            }
            other => Err(other),
        }
    })
}

/// The entries that a block says it has, as far as it can, whatever is wrong with it.
fn entries_of(block: &[u8]) -> Vec<LogEntry> {
    let count = usize::from(u16::from_le_bytes([block[2], block[3]])).min(41);
    let word =
        |at: usize| u32::from_le_bytes([block[at], block[at + 1], block[at + 2], block[at + 3]]);
    let entry = |at: usize| LogEntry::new(word(at), word(at + 4), word(at + 8));
    (0..count).map(|place| entry(8 + 12 * place)).collect()
}

/// The number of an entry's refusal against the plan, 0 for none.
fn against(plan: &Plan, entry: &LogEntry) -> u32 {
    place_in(plan, entry)
        .err()
        .map_or(0, |refusal| refusal.number)
}

/// A finished job of a block that is taken, with its line, its task's period and its deadline.
struct Job {
    line: usize,
    every: u32,
    deadline: u32,
    age: u32,
}

impl Job {
    /// Counts the job as it should be.
    fn count(&self, to: &mut Statement) {
        to.jobs[self.line] += 1;
        to.longest[self.line] = to.longest[self.line].max(self.age);
        to.late[self.line] += u32::from(self.age > self.deadline);
        to.margins[self.line] += i64::from(self.deadline) - i64::from(self.age);
    }
}

/// The jobs of a block that is taken.
fn jobs_of(plan: &Plan, block: &[u8]) -> Vec<Job> {
    let entries = read_log(block).unwrap_or_default();
    let jobs = entries.iter().map(|entry| {
        let (guest, task) = place_in(plan, entry).expect("a block that is taken");
        Job {
            line: 16 * guest + task,
            every: plan.guests[guest].every[task],
            deadline: plan.guests[guest].deadline[task],
            age: entry.age,
        }
    });
    jobs.collect()
}

/// The outcome of a call, but each job of a block that is taken is counted in another way; it is told the statement
/// with the job counted, and the one before.
fn by_jobs(
    running: &Statement,
    plan: &[u8],
    log: &[u8],
    change: impl Fn(&mut Statement, &Statement, &Job),
) -> Stated {
    by_blocks(running, plan, log, |statement, plan, block| {
        take(statement, plan, block)?;
        statement.blocks += 1;
        for job in jobs_of(plan, block) {
            let before = *statement;
            job.count(statement);
            change(statement, &before, &job);
        }
        Ok(())
    })
}

#[test]
fn the_reference_is_right_about_logs() {
    let session = compared(REFERENCE);
    assert!(session.found_nothing());
    assert!(session.held(statements::CUT));
}

#[test]
fn jobs_counted_by_themselves_are_right() {
    assert!(passes(|running, plan, log| {
        by_jobs(running, plan, log, |_, _, _| ())
    }));
    assert!(passes(|running, plan, log| {
        by_numbers(running, plan, log, |number, _, _, _| number)
    }));
}
