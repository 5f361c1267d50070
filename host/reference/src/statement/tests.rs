mod ranges;

use super::*;
use crate::log::block_of;
use crate::plan::{blocks_of, seal};
use crate::samples::{full, plan_a};

/// A log of blocks of these jobs, each as guest id, task number and age.
fn log(blocks: &[&[[u32; 3]]]) -> Vec<u8> {
    let entry = |[guest, task, age]: &[u32; 3]| LogEntry::new(*guest, *task, *age);
    let each = blocks.iter().map(|jobs| jobs.iter().map(entry).collect());
    each.flat_map(|jobs: Vec<LogEntry>| block_of(&jobs))
        .collect()
}

/// What an empty statement becomes by a log of plan A.
fn of_plan_a(log: &[u8]) -> Stated {
    state(&Statement::EMPTY, &blocks_of(&plan_a()), log)
}

/// How many were passed over, and the position and number of the first.
fn passed(stated: &Stated) -> (u64, u64, u32) {
    assert_eq!(stated.refusal, Refusal::NONE);
    (stated.passed, stated.position, stated.number)
}

/// A statement in which so many blocks are counted.
fn with_blocks(blocks: u64) -> Statement {
    Statement {
        blocks,
        ..Statement::EMPTY
    }
}

#[test]
fn jobs_longest_late_and_margins_of_plan_a() {
    let first: &[[u32; 3]] = &[[9, 1, 24], [9, 1, 50], [9, 1, 51], [7, 1, 4]];
    let stated = of_plan_a(&log(&[first, &[[9, 1, 30], [9, 2, 1_000_000]]]));
    assert_eq!(passed(&stated), (0, 0, 0));
    let mut expected = with_blocks(2);
    (expected.jobs[0], expected.longest[0], expected.margins[0]) = (1, 4, 16);
    (
        expected.jobs[16],
        expected.longest[16],
        expected.margins[16],
    ) = (4, 51, 26 - 1 + 20);
    (
        expected.jobs[17],
        expected.longest[17],
        expected.margins[17],
    ) = (1, 1_000_000, -999_900);
    (expected.late[16], expected.late[17]) = (1, 1);
    assert_eq!(stated.statement, expected);
}

#[test]
fn an_age_at_the_deadline_is_not_late() {
    let stated = of_plan_a(&log(&[&[[7, 1, 20]], &[[7, 1, 21]]]));
    assert_eq!(
        (stated.statement.late[0], stated.statement.margins[0]),
        (1, -1)
    );
}

#[test]
fn an_empty_log_is_fine() {
    let stated = of_plan_a(&[]);
    assert_eq!(passed(&stated), (0, 0, 0));
    assert_eq!(stated.statement, Statement::EMPTY);
}

#[test]
fn each_line_of_a_full_plan() {
    for (guest, task) in (1..=8).flat_map(|guest| (1..=16).map(move |task| (guest, task))) {
        let plan = blocks_of(&full());
        let stated = state(&Statement::EMPTY, &plan, &log(&[&[[guest, task, 301]; 41]]));
        let line = 16 * (guest - 1) + task - 1;
        for at in 0..PLACES {
            let jobs = if at == line as usize { 41 } else { 0 };
            assert_eq!(
                (stated.statement.jobs[at], stated.statement.late[at]),
                (jobs, jobs)
            );
            assert_eq!(stated.statement.margins[at], -i64::from(jobs));
        }
    }
}

#[test]
fn a_bad_block_is_passed_over_and_the_first_is_told() {
    let mut bytes = log(&[&[[9, 1, 24]], &[[8, 1, 24]], &[[9, 3, 24]], &[[9, 1, 24]]]);
    let stated = of_plan_a(&bytes);
    assert_eq!(passed(&stated), (2, 1, 7));
    assert_eq!((stated.statement.blocks, stated.statement.jobs[16]), (2, 2));
    bytes[9] = 1;
    let stated = of_plan_a(&bytes);
    assert_eq!(passed(&stated), (3, 0, 2));
    assert_eq!((stated.statement.blocks, stated.statement.jobs[16]), (1, 1));
}

#[test]
fn a_block_with_a_bad_entry_counts_none_of_its_entries() {
    let good = [9, 1, 24];
    for (bad, number) in [
        ([8, 1, 24], 7),
        ([0, 1, 24], 7),
        ([9, 0, 24], 8),
        ([9, 3, 24], 8),
        ([7, 2, 24], 8),
    ] {
        for block in [[bad, good], [good, bad]] {
            let stated = of_plan_a(&log(&[&block]));
            assert_eq!(passed(&stated), (1, 0, number));
            assert_eq!(stated.statement, Statement::EMPTY);
        }
    }
}

#[test]
fn refusals_of_a_block_in_their_order() {
    let number = |running: &Statement, blocks: &[[u32; 3]], bytes: &[(usize, u8)], sealed| {
        let mut log = log(&[blocks]);
        bytes.iter().for_each(|(at, value)| log[*at] = *value);
        if sealed {
            seal(&mut log);
        }
        state(running, &blocks_of(&plan_a()), &log).number
    };
    let most = with_blocks(MOST_BLOCKS);
    let (no_guest, no_task, no_age) = ([8, 1, 24], [9, 3, 24], [9, 1, 0]);
    let foreign = [no_task, no_guest];
    assert_eq!(
        number(&most, &[no_age, no_guest], &[(0, 1), (4, 1)], false),
        2
    );
    assert_eq!(
        number(&most, &[no_age, no_guest], &[(0, 1), (4, 1)], true),
        3
    );
    assert_eq!(number(&most, &[no_age, no_guest], &[(4, 1)], true), 18);
    assert_eq!(number(&most, &foreign, &[(4, 1)], true), 5);
    assert_eq!(number(&most, &foreign, &[], true), 7);
    assert_eq!(number(&most, &[no_task], &[], true), 8);
    assert_eq!(number(&most, &[[9, 1, 24]], &[], true), 19);
    assert_eq!(
        number(&with_blocks(MOST_BLOCKS - 1), &[[9, 1, 24]], &[], true),
        0
    );
}

#[test]
fn a_block_past_the_millionth_is_passed_over() {
    let plan = blocks_of(&plan_a());
    let bytes = log(&[&[[9, 1, 24]], &[[8, 1, 24]], &[[9, 1, 25]], &[[9, 1, 26]]]);
    let stated = state(&with_blocks(MOST_BLOCKS - 2), &plan, &bytes);
    assert_eq!(passed(&stated), (2, 1, 7));
    assert_eq!(
        (stated.statement.blocks, stated.statement.longest[16]),
        (MOST_BLOCKS, 25)
    );
    let stated = state(&with_blocks(MOST_BLOCKS), &plan, &bytes);
    assert_eq!(passed(&stated), (4, 0, 19));
    assert_eq!(stated.statement, with_blocks(MOST_BLOCKS));
}

#[test]
fn a_log_cut_between_blocks_gives_the_same_statement() {
    let plan = blocks_of(&plan_a());
    let blocks: [&[[u32; 3]]; 6] = [
        &[[9, 1, 24], [7, 1, 30]],
        &[[9, 2, 1_000_000]],
        &[[8, 1, 1]],
        &[[9, 1, 60]],
        &[[9, 1, 0]],
        &[[7, 1, 20]],
    ];
    let bytes = log(&blocks);
    let whole = of_plan_a(&bytes);
    assert_eq!(passed(&whole), (2, 2, 7));
    for cut in 0..=blocks.len() {
        let (before, after) = bytes.split_at(BLOCK * cut);
        let first = of_plan_a(before);
        let second = state(&first.statement, &plan, after);
        assert_eq!(second.statement, whole.statement);
        assert_eq!(first.passed + second.passed, whole.passed);
    }
    // The position is that in the log of the call.
    let part = state(&Statement::EMPTY, &plan, &bytes[BLOCK..]);
    assert_eq!(passed(&part), (2, 1, 7));
}

#[test]
fn whole_refusals_in_their_order_leave_the_statement() {
    let (mut plan, bytes) = (blocks_of(&plan_a()), log(&[&[[8, 1, 24]], &[[9, 1, 24]]]));
    let bad = with_blocks(MOST_BLOCKS + 1);
    let refused = |running: &Statement, plan: &[u8], log: &[u8]| {
        let stated = state(running, plan, log);
        assert_eq!(stated.statement, *running);
        assert_eq!((stated.passed, stated.position, stated.number), (0, 0, 0));
        (stated.refusal.number, stated.refusal.place)
    };
    for length in [1, 511, 513, 1_023] {
        assert_eq!(refused(&Statement::EMPTY, &plan, &bytes[..length]), (1, 0));
        assert_eq!(refused(&bad, &plan, &bytes[..length]), (14, 0));
    }
    assert_eq!(refused(&bad, &plan, &bytes), (14, 0));
    plan[BLOCK + 8] = 0;
    assert_eq!(refused(&bad, &plan, &bytes[1..]), (2, 1));
    seal(&mut plan[BLOCK..]);
    assert_eq!(refused(&bad, &plan, &bytes[1..]), (4, 1));
    assert_eq!(refused(&bad, &plan[1..], &bytes[1..]), (1, 0));
    assert_eq!(refused(&bad, &[], &bytes[1..]), (1, 0));
}
