//! Blocks of a log that are damaged in every way, and in every two ways.

use super::{stated, with_blocks};
use crate::call::Logged;
use crate::pairs::pairs;
use crate::session::Session;
use reference::log::{LogEntry, MOST_JOBS, block_of};
use reference::plan::{BLOCK, blocks_of, seal};
use reference::samples::plan_a;
use reference::statement::{MOST_BLOCKS, Statement};

pub fn compare(session: &mut Session) {
    flipped_bits(session);
    pairs_of_damages(session);
    counts(session);
    ages(session);
    foreign_entries(session);
}

/// A log of one block and a good one behind it, against plan A.
fn with_a_good_one(block: &[u8]) -> Logged {
    Logged {
        plan: blocks_of(&plan_a()),
        log: [block, &block_of(&three())].concat(),
    }
}

/// Jobs of all of plan A's tasks, one of them late.
fn three() -> [LogEntry; 3] {
    [
        LogEntry::new(9, 1, 24),
        LogEntry::new(9, 2, 100),
        LogEntry::new(7, 1, 21),
    ]
}

/// As many jobs as a block holds.
fn most() -> Vec<LogEntry> {
    three().repeat(14)[..MOST_JOBS].to_vec()
}

/// Every bit of a block of a few jobs and of a full one flipped, the check as it was and made anew.
fn flipped_bits(session: &mut Session) {
    for jobs in [&three()[..], &most()] {
        for bit in 0..8 * BLOCK {
            let mut block = block_of(jobs);
            block[bit / 8] ^= 1 << (bit % 8);
            stated(session, &Statement::EMPTY, &with_a_good_one(&block));
            seal(&mut block);
            stated(session, &Statement::EMPTY, &with_a_good_one(&block));
        }
    }
}

/// Words of the block of three jobs, most of them wrong in a way of its own: the offset and the word. The first word
/// has the kind and the number of jobs.
const WORDS: [(usize, u32); 38] = [
    (0, 0x0003_0003),
    (0, 0x0003_0000),
    (0, 0x0003_0001),
    (0, 0x0003_0002),
    (0, 0x0003_0103),
    (0, 0x0000_0003),
    (0, 0x0000_0001),
    (0, 0x0002_0003),
    (0, 0x0004_0003),
    (0, 0x0029_0003),
    (0, 0x002A_0003),
    (0, 0x0103_0003),
    (0, 0xFFFF_0003),
    (4, 1),
    (4, 0x0100_0000),
    (8, 0),
    (8, 7),
    (8, 8),
    (32, 8),
    (12, 0),
    (12, 3),
    (12, 0x0001_0001),
    (12, u32::MAX),
    (36, 2),
    (16, 0),
    (16, 1),
    (16, 50),
    (16, 51),
    (16, 1_000_000),
    (16, 1_000_001),
    (16, u32::MAX),
    (40, 0),
    (40, 1_000_001),
    (44, 9),
    (48, 1),
    (52, 30),
    (500, 1),
    (504, 0x0100_0000),
];

/// Every pair of damages, so that every order of refusals is met, where blocks are still counted and where no more are.
fn pairs_of_damages(session: &mut Session) {
    for (first, second) in pairs(&WORDS) {
        let mut block = block_of(&three());
        for (at, word) in [first, second] {
            block[at..at + 4].copy_from_slice(&word.to_le_bytes());
        }
        for running in [Statement::EMPTY, with_blocks(MOST_BLOCKS)] {
            stated(session, &running, &with_a_good_one(&block));
            let mut sealed = block;
            seal(&mut sealed);
            stated(session, &running, &with_a_good_one(&sealed));
        }
    }
}

/// Each number of entries with each number of jobs that the block may say.
fn counts(session: &mut Session) {
    for written in 1..=MOST_JOBS {
        for said in (0..45).chain([255, 256 + written as u16, 32_768 + written as u16, u16::MAX]) {
            let mut block = block_of(&most()[..written]);
            block[2..4].copy_from_slice(&said.to_le_bytes());
            seal(&mut block);
            stated(session, &Statement::EMPTY, &with_a_good_one(&block));
        }
    }
}

/// Each entry of a full block with ages at the edges of the range and of its task's deadline.
fn ages(session: &mut Session) {
    const AGES: [u32; 11] = [
        0,
        1,
        20,
        21,
        50,
        51,
        100,
        101,
        1_000_000,
        1_000_001,
        1 << 31,
    ];
    for at in 0..MOST_JOBS {
        for age in AGES {
            let mut jobs = most();
            jobs[at].age = age;
            stated(
                session,
                &Statement::EMPTY,
                &with_a_good_one(&block_of(&jobs)),
            );
        }
    }
}

/// A guest that is not in the plan at each entry of a full block, and a task that is not in its guest at each.
fn foreign_entries(session: &mut Session) {
    for (no_guest, no_task) in pairs(&[0, 1, 2, 3, 20, 38, 39, 40]) {
        for (id, task) in [
            (8, 3),
            (0, 0),
            (u32::MAX, 17),
            (8, u32::MAX),
            (9, 3),
            (8, 1),
        ] {
            let mut jobs = most();
            jobs[no_task].task = task;
            jobs[no_guest].guest = id;
            stated(
                session,
                &Statement::EMPTY,
                &with_a_good_one(&block_of(&jobs)),
            );
        }
    }
}
