//! Statements of finished jobs, and a log block written.

use super::{Case, FILES, case, ours, same};
use crate::inputs;
use plain::Statement;
use std::cell::LazyCell;
use std::hint::black_box;
use std::rc::Rc;

pub fn all() -> Vec<Case> {
    vec![
        write("write-log"),
        statement("statement-1-block", 1),
        statement("statement-100-blocks", 100),
        statement("statement-100000-blocks", 100_000),
    ]
}

/// A block with as many jobs as it holds.
fn write(name: &'static str) -> Case {
    let plain = inputs::jobs(0);
    let product = coreshare::LogEntries {
        count: plain.count,
        entries: plain
            .entries
            .map(|entry| coreshare::LogEntry::new(entry.guest, entry.task, entry.age)),
    };
    let (mut to_ours, mut to_same, mut to_reference) = ([0; 512], [0; 512], [0; 512]);
    case(
        name,
        FILES,
        move || {
            let refusal = ours::write_log(black_box(&product), black_box(&mut to_ours));
            u64::from(refusal.number) + u64::from(to_ours[508])
        },
        move || {
            let refusal = same::write_log(*black_box(&plain), black_box(&mut to_same));
            u64::from(refusal.number) + u64::from(to_same[508])
        },
        move || {
            let taken = black_box(&plain).write(black_box(&mut to_reference));
            taken.expect("taken");
            u64::from(to_reference[508])
        },
    )
}

/// An empty statement and a log of so many blocks, all of which are taken. The log is made once, for all sides, and
/// only when it is first asked for: a long one takes longer than many other cases.
fn statement(name: &'static str, blocks: u32) -> Case {
    let plan = inputs::growing();
    let log = Rc::new(LazyCell::new(move || inputs::log(blocks)));
    let (one, two) = ((plan.clone(), log.clone()), (plan.clone(), log.clone()));
    let mut placed = Statement::EMPTY;
    case(
        name,
        FILES,
        move || {
            let running = black_box(&coreshare::Statement::EMPTY);
            let stated = ours::statement(running, black_box(&plan), black_box(&log));
            let last = &stated.statement;
            told(last.blocks, last.late[127], last.margins[127]) + stated.passed
        },
        move || {
            let running = *black_box(&Statement::EMPTY);
            let stated = same::statement(running, black_box(&one.0), black_box(&one.1));
            let last = &stated.statement;
            told(last.blocks, last.late[127], last.margins[127]) + stated.passed
        },
        move || {
            let last = black_box(&mut placed);
            *last = Statement::EMPTY;
            let passed = last.extend(black_box(&two.0), black_box(&two.1));
            let passed = passed.expect("not refused whole").blocks;
            told(last.blocks, last.late[127], last.margins[127]) + passed
        },
    )
}

/// What shows that all sides do the same: the blocks counted, and the last line's late jobs and margins.
fn told(blocks: u64, late: u32, margins: i64) -> u64 {
    blocks + u64::from(late) + margins.unsigned_abs()
}
