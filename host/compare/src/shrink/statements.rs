//! Smaller logs and statements.

use super::{each, fewer_bytes, smaller_numbers, with_a_smaller_number, without_block};
use crate::call::{Call, Logged};
use reference::dispatcher::PLACES;
use reference::log::{LogEntries, block_of, read};
use reference::plan::BLOCK;
use reference::statement::Statement;

/// Bytes are taken away of a log that is no longer than this.
const SHORT: usize = 4 * BLOCK;

/// Fewer blocks in the log; then fewer jobs and bytes in a short log, and fewer bytes in its plan; then a smaller
/// running statement.
pub fn smaller(running: &Statement, of: &Logged) -> Vec<Call> {
    let with = |of: Logged| Call::State(Box::new(*running), of);
    let with_log = |log| with(Logged { log, ..of.clone() });
    let mut calls = each(fewer_blocks(&of.log), with_log);
    if of.log.len() <= SHORT {
        calls.extend(each(fewer_jobs(&of.log), with_log));
        calls.extend(each(fewer_bytes(&of.log), with_log));
        calls.extend(each(fewer_bytes(&of.plan), |plan| {
            with(Logged { plan, ..of.clone() })
        }));
    }
    calls.extend(each(smaller_statements(running), |running| {
        Call::State(Box::new(running), of.clone())
    }));
    calls
}

/// One half of the blocks, or all but one.
fn fewer_blocks(log: &[u8]) -> Vec<Vec<u8>> {
    let blocks = log.len() / BLOCK;
    let (first, second) = log.split_at(blocks / 2 * BLOCK);
    let halves = [first.to_vec(), second.to_vec()];
    let mut all: Vec<Vec<u8>> = halves
        .into_iter()
        .filter(|half| half.len() < log.len())
        .collect();
    all.extend((0..blocks).map(|gone| without_block(log, gone)));
    all
}

/// The first or the last job of a block taken away, where the block is right by itself and has another.
fn fewer_jobs(log: &[u8]) -> Vec<Vec<u8>> {
    let mut all = Vec::new();
    for (at, block) in log.chunks_exact(BLOCK).enumerate() {
        let jobs = read(block).unwrap_or_default();
        for fewer in [jobs.get(1..), jobs.split_last().map(|(_, others)| others)] {
            if let Some(fewer) = fewer.filter(|fewer| !fewer.is_empty()) {
                let mut changed = log.to_vec();
                changed[BLOCK * at..BLOCK * (at + 1)].copy_from_slice(&block_of(fewer));
                all.push(changed);
            }
        }
    }
    all
}

/// The statement with a number made smaller; a sum of margins also by half.
fn smaller_statements(statement: &Statement) -> Vec<Statement> {
    let fewer = [0, statement.blocks / 2, statement.blocks.saturating_sub(1)];
    let fewer = fewer
        .into_iter()
        .filter(|blocks| *blocks < statement.blocks);
    let mut all: Vec<Statement> = fewer
        .map(|blocks| Statement {
            blocks,
            ..*statement
        })
        .collect();
    for line in (0..PLACES).filter(|line| statement.margins[*line] != 0) {
        for margins in [0, statement.margins[line] / 2] {
            let mut less = *statement;
            less.margins[line] = margins;
            all.push(less);
        }
    }
    all.extend(with_a_smaller_number(statement, columns));
    all
}

fn columns(statement: &mut Statement) -> Vec<&mut u32> {
    let columns = [
        &mut statement.jobs,
        &mut statement.longest,
        &mut statement.late,
    ];
    columns.into_iter().flatten().collect()
}

/// A smaller number of jobs or of an entry, or a shorter buffer.
pub fn smaller_writes(jobs: &LogEntries, buffer: &[u8]) -> Vec<Call> {
    let write =
        |jobs: LogEntries, length: usize| Call::WriteLog(Box::new(jobs), buffer[..length].to_vec());
    let mut calls = each(with_a_smaller_number(jobs, entry_numbers), |jobs| {
        write(jobs, buffer.len())
    });
    calls.extend(each(smaller_numbers(buffer.len() as u32), |length| {
        write(*jobs, length as usize)
    }));
    calls
}

fn entry_numbers(jobs: &mut LogEntries) -> Vec<&mut u32> {
    let entries = jobs.entries.iter_mut();
    let numbers = entries.flat_map(|entry| [&mut entry.guest, &mut entry.task, &mut entry.age]);
    [&mut jobs.count].into_iter().chain(numbers).collect()
}
