//! Log blocks read and written.

use crate::Refusal;
use crate::block::{BLOCK, put_short, put_word, seal, short, sum};
use crate::records::LONGEST;

/// The most jobs in a block.
pub const MOST_JOBS: usize = 41;

#[repr(C)]
#[derive(Clone, Copy, Debug, Default, PartialEq, Eq)]
pub struct LogEntry {
    pub guest: u32,
    pub task: u32,
    pub age: u32,
}

#[repr(C)]
#[derive(Clone, Copy, Debug, PartialEq, Eq)]
pub struct LogEntries {
    pub count: u32,
    pub entries: [LogEntry; MOST_JOBS],
}

impl LogEntries {
    pub fn write(&self, buffer: &mut [u8]) -> Result<(), Refusal> {
        let Some(block) = buffer.first_chunk_mut::<BLOCK>() else {
            return Err(Refusal::new(12, 0));
        };
        let jobs = match self.entries.get(..self.count as usize) {
            Some(jobs) if !jobs.is_empty() && jobs.iter().all(LogEntry::in_range) => jobs,
            _ => return Err(Refusal::new(18, 0)),
        };
        encode(jobs, block);
        Ok(())
    }
}

impl LogEntry {
    fn in_range(&self) -> bool {
        (1..=LONGEST).contains(&self.age)
    }

    fn decode(bytes: &[u8; 12]) -> LogEntry {
        let word = |at: usize| {
            u32::from_le_bytes([bytes[at], bytes[at + 1], bytes[at + 2], bytes[at + 3]])
        };
        LogEntry {
            guest: word(0),
            task: word(4),
            age: word(8),
        }
    }
}

/// The entries of a block that is right by itself, or the refusal's number.
pub(crate) fn entries(block: &[u8; BLOCK]) -> Result<impl Iterator<Item = LogEntry>, u32> {
    if sum(block) != 0 {
        return Err(2);
    }
    if short(block, 0) != 3 {
        return Err(3);
    }
    let count = usize::from(short(block, 2));
    if !(1..=MOST_JOBS).contains(&count) {
        return Err(18);
    }
    let (jobs, past) = block[8..508].split_at(12 * count);
    let entries = jobs.as_chunks::<12>().0.iter().map(LogEntry::decode);
    if !entries.clone().all(|entry| entry.in_range()) {
        return Err(18);
    }
    let zero = |part: &[u8]| part.iter().fold(0, |all, byte| all | byte) == 0;
    if !zero(&block[4..8]) || !zero(past) {
        return Err(5);
    }
    Ok(entries)
}

fn encode(jobs: &[LogEntry], block: &mut [u8; BLOCK]) {
    block.fill(0);
    put_short(block, 0, 3);
    put_short(block, 2, jobs.len() as u16);
    for (at, job) in jobs.iter().enumerate() {
        put_word(block, 8 + 12 * at, job.guest);
        put_word(block, 12 + 12 * at, job.task);
        put_word(block, 16 + 12 * at, job.age);
    }
    seal(block);
}
