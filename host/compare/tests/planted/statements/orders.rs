//! Blocks passed over by another number than the first that holds.

use super::{against, by_numbers, entries_of, passes};
use reference::statement::MOST_BLOCKS;

#[test]
fn no_task_said_before_no_guest() {
    assert!(!passes(|running, plan, log| {
        by_numbers(running, plan, log, |number, _, plan, block| {
            let mut entries = entries_of(block).into_iter();
            match number == 7 && entries.any(|entry| against(plan, &entry) == 8) {
                true => 8,
                false => number,
            }
        })
    }));
}

#[test]
fn guest_and_task_looked_at_entry_by_entry() {
    assert!(!passes(|running, plan, log| {
        by_numbers(running, plan, log, |number, _, plan, block| match number {
            7 | 8 => {
                let entries = entries_of(block);
                let mut numbers = entries.iter().map(|entry| against(plan, entry));
                numbers.find(|number| *number > 0).unwrap_or(number)
            }
            _ => number,
        })
    }));
}

#[test]
fn zeros_looked_at_before_jobs_and_ages() {
    assert!(!passes(|running, plan, log| {
        by_numbers(running, plan, log, |number, _, _, block| {
            let past = 8 + 12 * entries_of(block).len();
            let rest = block[4..8].iter().chain(&block[past.min(508)..508]);
            match number == 18 && rest.copied().any(|byte| byte != 0) {
                true => 5,
                false => number,
            }
        })
    }));
}

#[test]
fn guests_looked_at_before_zeros() {
    assert!(!passes(|running, plan, log| {
        by_numbers(running, plan, log, |number, _, plan, block| {
            let mut entries = entries_of(block).into_iter();
            match number == 5 && entries.any(|entry| against(plan, &entry) == 7) {
                true => 7,
                false => number,
            }
        })
    }));
}

#[test]
fn the_kind_looked_at_before_the_sum() {
    assert!(!passes(|running, plan, log| {
        by_numbers(running, plan, log, |number, _, _, block| {
            match number == 2 && block[..2] != [3, 0] {
                true => 3,
                false => number,
            }
        })
    }));
}

#[test]
fn the_millionth_looked_at_before_guests_and_tasks() {
    assert!(!passes(|running, plan, log| {
        by_numbers(running, plan, log, |number, statement, _, _| {
            match [7, 8].contains(&number) && statement.blocks == MOST_BLOCKS {
                true => 19,
                false => number,
            }
        })
    }));
}
