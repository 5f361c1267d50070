//! Whole calls refused wrongly: in another order, at another place, or with something changed.

use super::passes;
use reference::plan::{BLOCK, LONGEST_PLAN, Refusal};
use reference::statement::{MOST_BLOCKS, Stated, Statement, in_range, state};

/// The outcome with another refusal.
fn refused(right: Stated, number: u32, place: u32) -> Stated {
    Stated {
        refusal: Refusal::new(number, place),
        ..right
    }
}

/// The whole blocks of a log.
fn whole_blocks(log: &[u8]) -> &[u8] {
    &log[..log.len() - log.len() % BLOCK]
}

#[test]
fn the_logs_length_looked_at_before_the_statement() {
    assert!(!passes(|running, plan, log| {
        let right = state(running, plan, log);
        match right.refusal.number == 14 && !log.len().is_multiple_of(BLOCK) {
            true => refused(right, 1, 0),
            false => right,
        }
    }));
}

#[test]
fn the_logs_length_looked_at_before_the_plan() {
    assert!(!passes(|running, plan, log| {
        let right = state(running, plan, log);
        match right.refusal.number > 1 && !log.len().is_multiple_of(BLOCK) && in_range(running) {
            true => refused(right, 1, 0),
            false => right,
        }
    }));
}

#[test]
fn the_statement_looked_at_before_the_plan() {
    assert!(!passes(|running, plan, log| {
        let right = state(running, plan, log);
        match in_range(running) {
            true => right,
            false => refused(right, 14, 0),
        }
    }));
}

#[test]
fn a_plans_refusal_without_its_place() {
    assert!(!passes(|running, plan, log| {
        let right = state(running, plan, log);
        refused(right, right.refusal.number, 0)
    }));
}

#[test]
fn the_line_told_as_the_place_of_a_statements_refusal() {
    assert!(!passes(|running, plan, log| {
        let right = state(running, plan, log);
        let line = running.margins.iter().position(|margins| *margins != 0);
        match right.refusal.number {
            14 => refused(right, 14, line.unwrap_or(0) as u32),
            _ => right,
        }
    }));
}

#[test]
fn a_statement_changed_by_a_log_of_a_wrong_length() {
    assert!(!passes(|running, plan, log| {
        let right = state(running, plan, log);
        match right.refusal.number {
            1 => Stated {
                statement: state(running, plan, whole_blocks(log)).statement,
                ..right
            },
            _ => right,
        }
    }));
}

#[test]
fn an_empty_statement_handed_back_on_a_refusal() {
    assert!(!passes(|running, plan, log| {
        let right = state(running, plan, log);
        match right.refusal.number {
            0 => right,
            _ => Stated {
                statement: Statement::EMPTY,
                ..right
            },
        }
    }));
}

#[test]
fn a_statement_cut_to_its_ranges_on_a_refusal() {
    assert!(!passes(|running, plan, log| {
        let mut right = state(running, plan, log);
        if right.refusal.number == 14 {
            right.statement.blocks = right.statement.blocks.min(MOST_BLOCKS);
        }
        right
    }));
}

#[test]
fn blocks_passed_over_not_taken_back_on_a_refusal() {
    assert!(!passes(|running, plan, log| {
        let right = state(running, plan, log);
        match right.refusal.number {
            1 => Stated {
                refusal: right.refusal,
                statement: *running,
                ..state(running, plan, whole_blocks(log))
            },
            _ => right,
        }
    }));
}

#[test]
fn an_empty_log_refused() {
    assert!(!passes(|running, plan, log| {
        let right = state(running, plan, log);
        match right.refusal.number == 0 && log.is_empty() {
            true => refused(right, 1, 0),
            false => right,
        }
    }));
}

#[test]
fn a_log_longer_than_a_plan_refused() {
    assert!(!passes(|running, plan, log| {
        let right = state(running, plan, log);
        match right.refusal.number == 0 && log.len() > LONGEST_PLAN {
            true => refused(state(running, plan, &[]), 1, 0),
            false => right,
        }
    }));
}

#[test]
fn bytes_behind_the_last_whole_block_left_aside() {
    assert!(!passes(|running, plan, log| {
        state(running, plan, whole_blocks(log))
    }));
}
