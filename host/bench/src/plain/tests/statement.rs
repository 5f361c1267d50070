//! Statements and log blocks with the reference's types.

use super::refusal;
use crate::exports;
use reference::log::LogEntries;
use reference::plan::Refusal;
use reference::statement::{Stated, Statement};

pub fn statement(running: &Statement, plan: &[u8], log: &[u8]) -> Stated {
    let running = plain::Statement {
        blocks: running.blocks,
        margins: running.margins,
        jobs: running.jobs,
        longest: running.longest,
        late: running.late,
    };
    let outcome = exports::statement(running, plan, log);
    let next = outcome.statement;
    Stated {
        refusal: refusal(outcome.refusal),
        statement: Statement {
            blocks: next.blocks,
            margins: next.margins,
            jobs: next.jobs,
            longest: next.longest,
            late: next.late,
        },
        passed: outcome.passed,
        position: outcome.position,
        number: outcome.number,
    }
}

pub fn write_log(jobs: &LogEntries, buffer: &mut [u8]) -> Refusal {
    let entries = jobs.entries.map(|entry| plain::log::LogEntry {
        guest: entry.guest,
        task: entry.task,
        age: entry.age,
    });
    let count = jobs.count;
    refusal(exports::write_log(
        plain::log::LogEntries { count, entries },
        buffer,
    ))
}
