//! The log block of finished jobs: P10 of document 02, sentence by sentence; its reader and its writer.

#[cfg(test)]
mod tests;

use crate::plan::{BLOCK, Refusal, put_short, put_word, seal, short, sum_of_words, word};
use std::ops::Range;

/// The most jobs in one block.
pub const MOST_JOBS: usize = 41;

/// The longest age of a job.
pub const LONGEST_AGE: u32 = 1_000_000;

const KIND: usize = 0;
const COUNT: usize = 2;
const GAP: Range<usize> = 4..8;
const ENTRIES: usize = 8;
const ENTRY: usize = 12;
const CHECK: usize = 508;

/// The kind of a log block.
const LOG: u16 = 3;

/// A finished job: the guest by its id, the task by its number from 1, and the job's age.
#[derive(Clone, Copy, Debug, Default, PartialEq, Eq)]
pub struct LogEntry {
    pub guest: u32,
    pub task: u32,
    pub age: u32,
}

/// The jobs for one block; those past the count are not looked at.
#[derive(Clone, Copy, Debug, PartialEq, Eq)]
pub struct LogEntries {
    pub count: u32,
    pub entries: [LogEntry; MOST_JOBS],
}

impl LogEntry {
    pub const fn new(guest: u32, task: u32, age: u32) -> LogEntry {
        LogEntry { guest, task, age }
    }
}

impl LogEntries {
    /// These jobs, and nothing past them.
    pub fn new(jobs: &[LogEntry]) -> LogEntries {
        let mut made = LogEntries {
            count: jobs.len() as u32,
            entries: [LogEntry::default(); MOST_JOBS],
        };
        made.entries[..jobs.len()].copy_from_slice(jobs);
        made
    }

    /// The jobs that count, or 18: a number of jobs that is not 1 to 41, or an age that is not 1 to 1,000,000.
    fn listed(&self) -> Result<&[LogEntry], u32> {
        if !count_in_range(self.count as usize) {
            return Err(18);
        }
        let listed = &self.entries[..self.count as usize];
        match listed.iter().all(age_in_range) {
            true => Ok(listed),
            false => Err(18),
        }
    }
}

fn count_in_range(count: usize) -> bool {
    (1..=MOST_JOBS).contains(&count)
}

fn age_in_range(entry: &LogEntry) -> bool {
    (1..=LONGEST_AGE).contains(&entry.age)
}

/// The entries of a block, or the refusal of the block by itself: 2, 3 for the kind, 18, 5.
pub fn read(block: &[u8]) -> Result<Vec<LogEntry>, u32> {
    if sum_of_words(block) != 0 {
        return Err(2);
    }
    if short(block, KIND) != LOG {
        return Err(3);
    }
    let count = usize::from(short(block, COUNT));
    if !count_in_range(count) {
        return Err(18);
    }
    let entries: Vec<LogEntry> = (0..count).map(|at| entry_in(block, at)).collect();
    if !entries.iter().all(age_in_range) {
        return Err(18);
    }
    let zero = |part: Range<usize>| block[part].iter().all(|byte| *byte == 0);
    if !zero(GAP) || !zero(entry(count)..CHECK) {
        return Err(5);
    }
    Ok(entries)
}

/// Writer: 12, 18; then the first 512 bytes of the lent buffer and no others.
pub fn write(jobs: &LogEntries, buffer: &mut [u8]) -> Refusal {
    if buffer.len() < BLOCK {
        return Refusal::new(12, 0);
    }
    match jobs.listed() {
        Ok(listed) => {
            buffer[..BLOCK].copy_from_slice(&block_of(listed));
            Refusal::NONE
        }
        Err(number) => Refusal::new(number, 0),
    }
}

/// The block of at most 41 jobs. Guest ids and task numbers are written as they are; unused bytes are zero.
pub fn block_of(jobs: &[LogEntry]) -> [u8; BLOCK] {
    let mut block = [0; BLOCK];
    put_short(&mut block, KIND, LOG);
    put_short(&mut block, COUNT, jobs.len() as u16);
    for (at, job) in jobs.iter().enumerate() {
        put_word(&mut block, entry(at), job.guest);
        put_word(&mut block, entry(at) + 4, job.task);
        put_word(&mut block, entry(at) + 8, job.age);
    }
    seal(&mut block);
    block
}

fn entry_in(block: &[u8], at: usize) -> LogEntry {
    LogEntry {
        guest: word(block, entry(at)),
        task: word(block, entry(at) + 4),
        age: word(block, entry(at) + 8),
    }
}

/// Where an entry begins.
fn entry(at: usize) -> usize {
    ENTRIES + ENTRY * at
}
