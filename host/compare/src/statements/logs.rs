//! Logs of every length, and every line of a full plan.

use super::{cut, ladder, stated, with_blocks};
use crate::call::Logged;
use crate::session::Session;
use reference::dispatcher::PLACES;
use reference::log::{LogEntry, MOST_JOBS, block_of};
use reference::plan::{BLOCK, blocks_of, seal};
use reference::statement::{MOST_BLOCKS, Statement, WIDEST_MARGIN};

/// The blocks of the longest log here.
const LONGEST: u32 = 60;

pub fn compare(session: &mut Session) {
    lengths(session);
    numbers_of_blocks(session);
    cuts(session);
    lines(session);
}

/// So many blocks against the ladder, every sixth of them bad.
fn logged(blocks: u32) -> Logged {
    Logged {
        plan: blocks_of(&ladder()),
        log: (0..blocks).flat_map(nth_block).collect(),
    }
}

/// A block of jobs all over the plan, some on time and some late; every sixth is bad in a way of its own.
fn nth_block(block: u32) -> [u8; BLOCK] {
    let jobs = (0..1 + 7 * block % MOST_JOBS as u32).map(|at| {
        let (guest, task) = (1 + (block + at) % 8, 1 + (3 * block + at) % 16);
        LogEntry::new(guest, task, 1 + (37 * block + 11 * at) % 300)
    });
    let right = block_of(&jobs.collect::<Vec<_>>());
    match block % 6 {
        4 => bad(right, block / 6),
        _ => right,
    }
}

/// A block made bad by one byte: another kind, number of jobs, guest, task or age, or one that must be zero; or by its
/// check.
fn bad(block: [u8; BLOCK], way: u32) -> [u8; BLOCK] {
    let mut bad = block;
    let (at, value) =
        [(0, 1), (2, 0), (8, 9), (12, 17), (19, 1), (5, 1), (511, 99)][way as usize % 7];
    bad[at] = value;
    if at < 508 {
        seal(&mut bad);
    }
    bad
}

/// Statements for a log: an empty one, one that is full after some more blocks, and a full one.
fn runnings() -> [Statement; 4] {
    let half_full = with_blocks(MOST_BLOCKS - u64::from(LONGEST / 2));
    let almost_full = with_blocks(MOST_BLOCKS - 1);
    [
        Statement::EMPTY,
        half_full,
        almost_full,
        with_blocks(MOST_BLOCKS),
    ]
}

/// Every length of a log up to some blocks, from its start and up to its end; a bad block is among them.
fn lengths(session: &mut Session) {
    let of = logged(5);
    for length in 0..=of.log.len() {
        for log in [&of.log[..length], &of.log[length..]] {
            let plan = of.plan.clone();
            let log = log.to_vec();
            stated(session, &Statement::EMPTY, &Logged { plan, log });
        }
    }
}

/// Every number of blocks, and a byte more or less.
fn numbers_of_blocks(session: &mut Session) {
    for running in runnings() {
        for blocks in 0..=LONGEST {
            let mut of = logged(blocks);
            stated(session, &running, &of);
            of.log.push(0);
            stated(session, &running, &of);
            of.log.truncate((BLOCK * blocks as usize).saturating_sub(1));
            stated(session, &running, &of);
        }
    }
}

/// The longest log cut between any two blocks.
fn cuts(session: &mut Session) {
    let of = logged(LONGEST);
    for running in runnings() {
        for at in 0..=LONGEST as usize {
            cut(session, &running, &of, at);
        }
    }
}

/// A job of each task of the ladder with ages about its deadline, into an empty statement and into one with something
/// in each line.
fn lines(session: &mut Session) {
    let plan = blocks_of(&ladder());
    for line in 0..PLACES as u32 {
        let deadline = 100 + line;
        for age in [1, deadline - 1, deadline, deadline + 1, 1_000_000] {
            let job = LogEntry::new(1 + line / 16, 1 + line % 16, age);
            let of = Logged {
                plan: plan.clone(),
                log: [block_of(&[job]), block_of(&[job; MOST_JOBS])].concat(),
            };
            stated(session, &Statement::EMPTY, &of);
            stated(session, &something_in_each_line(), &of);
        }
    }
}

/// Each line has another number of jobs, longest age and number late, and a sum of margins of either sign.
fn something_in_each_line() -> Statement {
    let lines = || std::array::from_fn(|line| line as u32);
    Statement {
        blocks: 4,
        jobs: lines(),
        longest: lines().map(|line| 7_000 * line),
        late: lines().map(|line| line / 2),
        margins: std::array::from_fn(|line| match line % 3 {
            0 => WIDEST_MARGIN * line as i64,
            1 => -WIDEST_MARGIN * line as i64,
            _ => line as i64 - 64,
        }),
    }
}
