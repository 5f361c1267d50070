//! Running statements held to wrong ranges.

use super::passes;
use reference::plan::{BLOCK, Refusal, read};
use reference::statement::{MOST_BLOCKS, Stated, Statement, in_range, state};

/// What is wrongly said of a statement that is not refused as it should be.
fn taken(running: &Statement) -> Stated {
    outcome(running, 0)
}

/// What is wrongly said of a statement that is refused.
fn refused(running: &Statement) -> Stated {
    outcome(running, 14)
}

fn outcome(running: &Statement, number: u32) -> Stated {
    Stated {
        refusal: Refusal::new(number, 0),
        statement: *running,
        passed: 0,
        position: 0,
        number: 0,
    }
}

/// The right outcome, but a statement that is refused is taken if it is right with some numbers changed.
fn taken_if(running: &Statement, plan: &[u8], log: &[u8], change: fn(&mut Statement)) -> Stated {
    let right = state(running, plan, log);
    let mut other = *running;
    change(&mut other);
    match right.refusal.number == 14 && in_range(&other) && log.len().is_multiple_of(BLOCK) {
        true => taken(running),
        false => right,
    }
}

/// Changes each line's jobs, longest age, late jobs and sum.
fn each_line(statement: &mut Statement, change: fn(&mut u32, &mut u32, &mut u32, &mut i64)) {
    let Statement {
        jobs,
        longest,
        late,
        margins,
        ..
    } = statement;
    let columns = jobs.iter_mut().zip(longest).zip(late).zip(margins);
    columns.for_each(|(((jobs, longest), late), margins)| change(jobs, longest, late, margins));
}

#[test]
fn a_million_and_one_blocks_taken() {
    assert!(!passes(|running, plan, log| {
        taken_if(running, plan, log, |statement| {
            statement.blocks -= u64::from(statement.blocks == MOST_BLOCKS + 1);
        })
    }));
}

#[test]
fn blocks_looked_at_in_32_bits() {
    assert!(!passes(|running, plan, log| {
        taken_if(running, plan, log, |statement| {
            statement.blocks = u64::from(statement.blocks as u32);
        })
    }));
}

#[test]
fn a_million_blocks_refused() {
    assert!(!passes(|running, plan, log| {
        let right = state(running, plan, log);
        match right.refusal.number == 0 && running.blocks == MOST_BLOCKS {
            true => refused(running),
            false => right,
        }
    }));
}

#[test]
fn a_job_more_than_41_for_each_block_taken() {
    assert!(!passes(|running, plan, log| {
        let right = state(running, plan, log);
        let most = 41 * u128::from(running.blocks);
        match right.refusal.number == 14
            && running
                .jobs
                .iter()
                .any(|jobs| u128::from(*jobs) == most + 1)
        {
            true => taken(running),
            false => right,
        }
    }));
}

#[test]
fn more_late_than_jobs_taken() {
    assert!(!passes(|running, plan, log| {
        taken_if(running, plan, log, |statement| {
            each_line(statement, |jobs, _, late, _| *late = *jobs.min(late));
        })
    }));
}

#[test]
fn a_longest_age_of_1_000_001_taken() {
    assert!(!passes(|running, plan, log| {
        taken_if(running, plan, log, |statement| {
            each_line(statement, |_, longest, _, _| {
                *longest -= u32::from(*longest == 1_000_001)
            });
        })
    }));
}

#[test]
fn a_sum_held_to_a_million_for_each_job() {
    assert!(!passes(|running, plan, log| {
        taken_if(running, plan, log, |statement| {
            each_line(statement, |jobs, _, _, margins| {
                let jobs = i64::from(*jobs);
                if margins.unsigned_abs() <= 1_000_000 * jobs.unsigned_abs() {
                    *margins = (*margins).clamp(-999_999 * jobs, 999_999 * jobs);
                }
            });
        })
    }));
}

#[test]
fn a_negative_sum_not_held_to_anything() {
    assert!(!passes(|running, plan, log| {
        taken_if(running, plan, log, |statement| {
            each_line(statement, |_, _, _, margins| *margins = (*margins).max(0));
        })
    }));
}

#[test]
fn a_negative_sum_refused() {
    assert!(!passes(|running, plan, log| {
        let right = state(running, plan, log);
        match right.refusal.number == 0 && running.margins.iter().any(|margins| *margins < 0) {
            true => refused(running),
            false => right,
        }
    }));
}

#[test]
fn the_size_of_the_least_sum_wrapped() {
    assert!(!passes(|running, plan, log| {
        taken_if(running, plan, log, |statement| {
            each_line(statement, |_, _, _, margins| {
                if *margins == i64::MIN {
                    *margins = 0;
                }
            });
        })
    }));
}

/// How many lines a plan's guests have, from the first on.
fn lines_of(plan: &[u8]) -> usize {
    16 * read(plan).plan.count as usize
}

#[test]
fn the_plans_lines_looked_at_alone() {
    assert!(!passes(|running, plan, log| {
        let right = state(running, plan, log);
        let first = lines_of(plan);
        let mut own = *running;
        own.jobs[first..].fill(0);
        own.longest[first..].fill(0);
        own.late[first..].fill(0);
        own.margins[first..].fill(0);
        match right.refusal.number == 14 && in_range(&own) {
            true => taken(running),
            false => right,
        }
    }));
}

#[test]
fn lines_of_no_guest_asked_to_be_zero() {
    assert!(!passes(|running, plan, log| {
        let right = state(running, plan, log);
        let mut past = running.longest.iter().skip(lines_of(plan));
        match right.refusal.number == 0 && past.any(|longest| *longest > 0) {
            true => refused(running),
            false => right,
        }
    }));
}

#[test]
fn the_last_line_not_looked_at() {
    assert!(!passes(|running, plan, log| {
        taken_if(running, plan, log, |statement| {
            statement.jobs[127] = 0;
            statement.longest[127] = 0;
            statement.late[127] = 0;
            statement.margins[127] = 0;
        })
    }));
}
