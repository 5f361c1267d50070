//! Blocks passed over that should be taken, taken that should be passed over, or told wrongly.

use super::{against, by_blocks, by_numbers, entries_of, jobs_of, passes};
use reference::log::{self, LogEntry};
use reference::plan::{BLOCK, Plan, read, seal};
use reference::statement::{MOST_BLOCKS, Stated, Statement, state, take};

/// The position and the number of each block of a log that is passed over, none of a log that is refused whole.
fn all_passed(running: &Statement, plan: &[u8], log: &[u8]) -> Vec<(u64, u32)> {
    let mut passed = Vec::new();
    if state(running, plan, log).refusal.number == 0 {
        let (plan, mut statement) = (read(plan).plan, *running);
        for (position, block) in (0..).zip(log.chunks(BLOCK)) {
            match take(&statement, &plan, block) {
                Ok(next) => statement = next,
                Err(number) => passed.push((position, number)),
            }
        }
    }
    passed
}

/// Whether a block whose bytes are changed in this way would be taken.
fn taken_if(statement: &Statement, plan: &Plan, block: &[u8], change: impl Fn(&mut [u8])) -> bool {
    let mut other = block.to_vec();
    change(&mut other);
    seal(&mut other);
    take(statement, plan, &other).is_ok()
}

#[test]
fn a_bad_block_counted() {
    assert!(!passes(|running, plan, log| {
        let mut stated = state(running, plan, log);
        let blocks = &mut stated.statement.blocks;
        *blocks = MOST_BLOCKS.min(*blocks + stated.passed).max(running.blocks);
        stated
    }));
}

#[test]
fn entries_before_a_bad_one_counted() {
    assert!(!passes(|running, plan, log| {
        by_blocks(running, plan, log, |statement, plan, block| {
            let right = take(statement, plan, block);
            if let Err(7 | 8) = right {
                let entries = entries_of(block);
                let good = entries.iter().take_while(|entry| against(plan, entry) == 0);
                let good: Vec<LogEntry> = good.copied().collect();
                for job in jobs_of(plan, &log::block_of(&good)) {
                    job.count(statement);
                }
            }
            *statement = right?;
            Ok(())
        })
    }));
}

#[test]
fn the_second_bad_block_told_as_the_first() {
    assert!(!passes(|running, plan, log| {
        let right = state(running, plan, log);
        match all_passed(running, plan, log).get(1) {
            Some((position, number)) => Stated {
                position: *position,
                number: *number,
                ..right
            },
            _ => right,
        }
    }));
}

#[test]
fn the_number_of_the_last_bad_block_told_with_the_first_position() {
    assert!(!passes(|running, plan, log| {
        let right = state(running, plan, log);
        match all_passed(running, plan, log).last() {
            Some((_, number)) => Stated {
                number: *number,
                ..right
            },
            _ => right,
        }
    }));
}

#[test]
fn positions_from_the_statements_start() {
    assert!(!passes(|running, plan, log| {
        let mut stated = state(running, plan, log);
        if stated.passed > 0 {
            stated.position += running.blocks;
        }
        stated
    }));
}

#[test]
fn positions_from_1() {
    assert!(!passes(|running, plan, log| {
        let mut stated = state(running, plan, log);
        stated.position += u64::from(stated.passed > 0);
        stated
    }));
}

#[test]
fn the_position_told_in_bytes() {
    assert!(!passes(|running, plan, log| {
        let mut stated = state(running, plan, log);
        stated.position *= BLOCK as u64;
        stated
    }));
}

#[test]
fn a_log_given_up_at_its_first_bad_block() {
    assert!(!passes(|running, plan, log| {
        let right = state(running, plan, log);
        match right.passed {
            0 => right,
            _ => state(running, plan, &log[..BLOCK * (right.position as usize + 1)]),
        }
    }));
}

#[test]
fn the_millionth_block_passed_over() {
    assert!(!passes(|running, plan, log| {
        by_numbers(running, plan, log, |number, statement, _, _| {
            match number == 0 && statement.blocks == MOST_BLOCKS - 1 {
                true => 19,
                false => number,
            }
        })
    }));
}

#[test]
fn a_block_past_the_millionth_counted() {
    assert!(!passes(|running, plan, log| {
        by_blocks(running, plan, log, |statement, plan, block| {
            let right = take(statement, plan, block);
            if let Err(19) = right {
                statement.blocks += 1;
                jobs_of(plan, block)
                    .iter()
                    .for_each(|job| job.count(statement));
                return Ok(());
            }
            *statement = right?;
            Ok(())
        })
    }));
}

#[test]
fn a_kind_held_to_its_low_byte_alone() {
    assert!(!passes(|running, plan, log| {
        by_numbers(running, plan, log, |number, statement, plan, block| {
            let low = taken_if(statement, plan, block, |block| block[1] = 0);
            if number == 3 && low { 0 } else { number }
        })
    }));
}

#[test]
fn a_number_of_jobs_held_to_its_low_byte_alone() {
    assert!(!passes(|running, plan, log| {
        by_numbers(running, plan, log, |number, statement, plan, block| {
            let low = taken_if(statement, plan, block, |block| block[3] = 0);
            if number == 18 && low { 0 } else { number }
        })
    }));
}

#[test]
fn bytes_4_to_7_not_looked_at() {
    assert!(!passes(|running, plan, log| {
        by_numbers(running, plan, log, |number, statement, plan, block| {
            let blank = taken_if(statement, plan, block, |block| block[4..8].fill(0));
            if number == 5 && blank { 0 } else { number }
        })
    }));
}

#[test]
fn bytes_past_the_last_entry_not_looked_at() {
    assert!(!passes(|running, plan, log| {
        by_numbers(running, plan, log, |number, statement, plan, block| {
            let blank = taken_if(statement, plan, block, |block| block[500..508].fill(0));
            if number == 5 && blank { 0 } else { number }
        })
    }));
}

#[test]
fn a_full_block_passed_over() {
    assert!(!passes(|running, plan, log| {
        by_numbers(running, plan, log, |number, _, _, block| {
            if number == 0 && block[2] == 41 {
                18
            } else {
                number
            }
        })
    }));
}

#[test]
fn the_longest_age_passed_over() {
    assert!(!passes(|running, plan, log| {
        by_numbers(running, plan, log, |number, _, _, block| {
            let longest = entries_of(block).iter().any(|entry| entry.age == 1_000_000);
            if number == 0 && longest { 18 } else { number }
        })
    }));
}
