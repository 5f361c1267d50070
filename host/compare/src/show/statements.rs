//! Prints logs and statements, leaving out what is zero.

use super::{blocks, not_zero};
use crate::call::Logged;
use reference::log::{LogEntries, LogEntry};
use reference::statement::{Stated, Statement};

/// The blocks of the plan and of the log.
pub fn logged(of: &Logged) -> String {
    format!("plan {} log {}", blocks(&of.plan), blocks(&of.log))
}

/// The blocks counted and each number that is not zero, with its line.
pub fn statement(of: &Statement) -> String {
    let columns = [
        ("jobs", not_zero(&of.jobs)),
        ("longest", not_zero(&of.longest)),
        ("late", not_zero(&of.late)),
        ("margins", not_zero(&of.margins)),
    ];
    let columns = columns.map(|(name, column)| format!("{name} [{column}]"));
    format!("blocks {} {}", of.blocks, columns.join(" "))
}

/// The refusal, what was passed over, and the statement.
pub fn stated(of: &Stated) -> String {
    let passed = format!(
        "passed {} first at {} by {}",
        of.passed, of.position, of.number
    );
    format!("{:?} {passed} {}", of.refusal, statement(&of.statement))
}

/// The count and each entry that is not zero, as its place and guest/task/age.
pub fn jobs(of: &LogEntries) -> String {
    let all = of.entries.iter().enumerate();
    let set = all.filter(|(_, entry)| **entry != LogEntry::default());
    let each = set.map(|(at, entry)| format!("{at}: {}/{}/{}", entry.guest, entry.task, entry.age));
    let each: Vec<String> = each.collect();
    format!("count {} ({})", of.count, each.join(", "))
}
