//! Logs of finished jobs of a full plan.

use plain::block::BLOCK;
use plain::log::{LogEntries, LogEntry, MOST_JOBS};

/// So many blocks, each with as many jobs as it holds: all over the plan, of all ages.
pub fn log(blocks: u32) -> Vec<u8> {
    let mut bytes = vec![0; BLOCK * blocks as usize];
    for (block, to) in (0..).zip(bytes.chunks_mut(BLOCK)) {
        jobs(block).write(to).expect("a well-formed block");
    }
    bytes
}

/// The jobs of the block at a position.
pub fn jobs(block: u32) -> LogEntries {
    LogEntries {
        count: MOST_JOBS as u32,
        entries: std::array::from_fn(|at| {
            let number = MOST_JOBS as u32 * block + at as u32;
            LogEntry {
                guest: 1 + number % 8,
                task: 1 + number / 8 % 16,
                age: 1 + number.wrapping_mul(7_919) % 1_000_000,
            }
        }),
    }
}
