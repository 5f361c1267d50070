//! Running statements at the edges of their ranges and past them, and the order of the refusals of a whole call.

use super::{ladder, stated, with_blocks};
use crate::call::Logged;
use crate::pairs::{pairs, wrong_words};
use crate::session::Session;
use reference::dispatcher::PLACES;
use reference::log::{LogEntry, block_of};
use reference::plan::{BLOCK, LONGEST_PLAN, Plan, blocks_of, seal};
use reference::samples::{plan_a, plan_a_bound};
use reference::statement::{MOST_BLOCKS, Statement, WIDEST_MARGIN};

pub fn compare(session: &mut Session) {
    blocks_counted(session);
    each_line(session);
    two_lines(session);
    whole_refusals(session);
}

/// Statements with so many blocks, and with as many jobs in a line as there may be, or one more.
fn blocks_counted(session: &mut Session) {
    const BLOCKS: [u64; 12] = [
        0,
        1,
        2,
        MOST_BLOCKS - 1,
        MOST_BLOCKS,
        MOST_BLOCKS + 1,
        u32::MAX as u64,
        1 << 32,
        (1 << 32) + 1,
        u64::MAX / 41 + 1,
        1 << 63,
        u64::MAX,
    ];
    for blocks in BLOCKS {
        let most = 41_u64.wrapping_mul(blocks) as u32;
        for jobs in [
            0,
            1,
            most.wrapping_sub(1),
            most,
            most.wrapping_add(1),
            u32::MAX,
        ] {
            let mut running = with_blocks(blocks);
            running.jobs[17] = jobs;
            stated(session, &running, &of_one_job(&plan_a()));
        }
    }
}

/// A plan with one job of guest 9, if it has such a guest, or else of guest 1.
fn of_one_job(plan: &Plan) -> Logged {
    let guest = if plan.place_of(9).is_ok() { 9 } else { 1 };
    Logged {
        plan: blocks_of(plan),
        log: block_of(&[LogEntry::new(guest, 2, 1_000_000)]).to_vec(),
    }
}

/// One number of a line at its limit or one past it, where a statement of some blocks has so many jobs in the line.
fn edges(blocks: u64, jobs: u32, line: usize) -> Vec<Statement> {
    let mut right = with_blocks(blocks);
    right.jobs[line] = jobs;
    let mut all = Vec::new();
    for number in [
        0,
        jobs,
        jobs.wrapping_add(1),
        jobs.wrapping_sub(1),
        u32::MAX,
    ] {
        let mut edge = right;
        edge.late[line] = number;
        all.push(edge);
    }
    for number in [0, 1, 999_999, 1_000_000, 1_000_001, 1 << 31, u32::MAX] {
        let mut edge = right;
        edge.longest[line] = number;
        all.push(edge);
    }
    let most = WIDEST_MARGIN * i64::from(jobs);
    for number in [
        most,
        -most,
        most + 1,
        -most - 1,
        i64::MAX,
        i64::MIN,
        1 << 32,
        -1 << 32,
    ] {
        let mut edge = right;
        edge.margins[line] = number;
        all.push(edge);
    }
    all
}

/// Each line at its edges: those of the plan's tasks, and those of no task.
fn each_line(session: &mut Session) {
    let (small, large) = (of_one_job(&plan_a()), of_one_job(&ladder()));
    for line in 0..PLACES {
        for (blocks, jobs) in [(0, 0), (0, 1), (1, 0), (1, 41), (1, 42)] {
            for running in edges(blocks, jobs, line) {
                stated(session, &running, &small);
            }
        }
        for (blocks, jobs) in [
            (2, 82),
            (2, 83),
            (MOST_BLOCKS - 1, 40_999_959),
            (MOST_BLOCKS, 41_000_000),
            (MOST_BLOCKS, 41_000_001),
            (MOST_BLOCKS, u32::MAX),
        ] {
            for running in edges(blocks, jobs, line) {
                stated(session, &running, &large);
            }
        }
    }
}

/// A line that is right, another that is wrong: both orders.
fn two_lines(session: &mut Session) {
    let of = of_one_job(&plan_a());
    for (first, second) in pairs(&[0, 1, 15, 16, 17, 18, 31, 32, 63, 64, 126, 127]) {
        for edge in edges(1, 41, second) {
            let mut running = edge;
            running.jobs[first] = 41;
            running.margins[first] = -41 * WIDEST_MARGIN;
            stated(session, &running, &of);
        }
    }
}

/// Plan A's blocks right, of other lengths, and wrong in every word that matters, with the check made anew and not.
fn plans() -> Vec<Vec<u8>> {
    let plan = plan_a_bound(1);
    let right = blocks_of(&plan);
    let mut all = vec![
        right.clone(),
        Vec::new(),
        right[1..].to_vec(),
        vec![0; LONGEST_PLAN + BLOCK],
    ];
    for (at, word) in [wrong_words(&plan, 0), wrong_words(&plan, 1)].concat() {
        let mut bytes = right.clone();
        bytes[at..at + 4].copy_from_slice(&word.to_le_bytes());
        all.push(bytes.clone());
        bytes.chunks_mut(BLOCK).for_each(seal);
        all.push(bytes);
    }
    all
}

/// Each plan with statements that are right, have too many blocks, or are wrong in the last line, and with logs that
/// are right, have another length, or have a bad block.
fn whole_refusals(session: &mut Session) {
    let mut last_line = Statement::EMPTY;
    last_line.margins[PLACES - 1] = 1;
    let block = block_of(&[LogEntry::new(9, 1, 24)]);
    let bad = block_of(&[LogEntry::new(8, 1, 24)]);
    let logs = [
        Vec::new(),
        block.to_vec(),
        block[1..].to_vec(),
        [&bad[..], &block, &[0]].concat(),
        [bad, block].concat(),
    ];
    for plan in plans() {
        for running in [with_blocks(1), with_blocks(MOST_BLOCKS + 1), last_line] {
            for log in &logs {
                let (plan, log) = (plan.clone(), log.clone());
                stated(session, &running, &Logged { plan, log });
            }
        }
    }
}
