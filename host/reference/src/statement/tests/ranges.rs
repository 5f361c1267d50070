//! The ranges of a running statement, which refusal 14 holds it to.

use super::{of_plan_a, with_blocks};
use crate::dispatcher::PLACES;
use crate::log::LogEntry;
use crate::plan::blocks_of;
use crate::samples::plan_a;
use crate::statement::{MOST_BLOCKS, Statement, in_range, state};

/// A statement of so many blocks with these numbers in a line: jobs, longest, late, margins.
fn with_line(blocks: u64, line: usize, numbers: (u32, u32, u32, i64)) -> Statement {
    let mut statement = with_blocks(blocks);
    (statement.jobs[line], statement.longest[line]) = (numbers.0, numbers.1);
    (statement.late[line], statement.margins[line]) = (numbers.2, numbers.3);
    statement
}

#[test]
fn at_most_a_million_blocks() {
    assert!(in_range(&Statement::EMPTY));
    assert!(in_range(&with_blocks(MOST_BLOCKS)));
    for blocks in [MOST_BLOCKS + 1, 1 << 32, u64::MAX / 41 + 1, u64::MAX] {
        assert!(!in_range(&with_blocks(blocks)));
    }
}

#[test]
fn every_line_is_held_to_its_ranges_and_none_is_asked_to_be_zero() {
    for line in 0..PLACES {
        for (numbers, right) in [
            ((41, 1_000_000, 41, 41 * 999_999), true),
            ((41, 1_000_000, 41, -41 * 999_999), true),
            ((0, 1_000_000, 0, 0), true),
            ((41, 0, 0, 41 * 999_999 + 1), false),
            ((41, 0, 0, -41 * 999_999 - 1), false),
            ((0, 0, 0, 1), false),
            ((0, 0, 0, -1), false),
            ((1, 0, 0, i64::MIN), false),
            ((1, 0, 0, i64::MAX), false),
            ((42, 0, 0, 0), false),
            ((u32::MAX, 0, 0, 0), false),
            ((41, 1_000_001, 0, 0), false),
            ((40, 0, 41, 0), false),
        ] {
            assert_eq!(
                in_range(&with_line(1, line, numbers)),
                right,
                "{line} {numbers:?}"
            );
        }
        assert!(!in_range(&with_line(0, line, (1, 0, 0, 0))));
        let most = (41_000_000, 1_000_000, 41_000_000, -40_999_959_000_000);
        assert!(in_range(&with_line(MOST_BLOCKS, line, most)));
        let more = (41_000_001, 1_000_000, 41_000_000, 0);
        assert!(!in_range(&with_line(MOST_BLOCKS, line, more)));
    }
}

#[test]
fn no_call_leaves_the_ranges() {
    let mut bytes = Vec::new();
    for jobs in [
        [LogEntry::new(9, 2, 1_000_000); 41],
        [LogEntry::new(9, 2, 1); 41],
    ] {
        bytes.extend(crate::log::block_of(&jobs));
    }
    let once = of_plan_a(&bytes).statement;
    assert_eq!(once.margins[17], 41 * (100 - 1_000_000 + 99));
    assert!(in_range(&once));
    let full = with_line(
        MOST_BLOCKS - 1,
        17,
        (40_999_959, 1_000_000, 40_999_959, -40_999_918_000_041),
    );
    assert!(in_range(&full));
    let last = state(&full, &blocks_of(&plan_a()), &bytes);
    assert_eq!((last.passed, last.position, last.number), (1, 1, 19));
    assert_eq!(last.statement.jobs[17], 41_000_000);
    assert_eq!(
        last.statement.margins[17],
        -40_999_918_000_041 - 41 * 999_900
    );
    assert!(in_range(&last.statement));
}
