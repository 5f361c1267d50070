//! Random sheets of releases.

use crate::call::Call;
use crate::plans::{some_id, some_task};
use crate::random::Random;
use reference::dispatcher::{Dispatcher, LONGEST_SHEET, pair};
use reference::plan::Plan;

/// A sheet for a state: pairs of its tasks, repeated ones and foreign ones, and places for the answers.
pub fn sheet(random: &mut Random, state: &Dispatcher) -> Call {
    let count = count(random);
    let pairs = pairs(random, &state.plan, count);
    let answers = answers(random, count);
    Call::Sheet(Box::new(*state), pairs, answers)
}

/// How many pairs: mostly a few, now and then as many as there may be, or more.
fn count(random: &mut Random) -> usize {
    match random.below(80) {
        0 => LONGEST_SHEET,
        1 => LONGEST_SHEET + 1,
        2 => random.below(LONGEST_SHEET + 80),
        3..=5 => 0,
        6..=8 => 1,
        _ => random.below(16),
    }
}

/// As many pairs for a plan as asked for, some of them more than once.
pub fn pairs(random: &mut Random, plan: &Plan, count: usize) -> Vec<u64> {
    let mut pairs = Vec::new();
    for at in 0..count {
        let one = match at > 0 && random.once_in(4) {
            true => random.pick(&pairs),
            false => some_pair(random, plan),
        };
        pairs.push(one);
    }
    pairs
}

/// A pair of a task in the plan, or now and then of none; its guest part may be a guest's id in its
/// lower 32 bits alone.
fn some_pair(random: &mut Random, plan: &Plan) -> u64 {
    let id = some_id(random, plan);
    let task = some_task(random, plan, id) as u16;
    match random.below(16) {
        0 => random.next(),
        1 => pair(id, task) + (u64::from(random.from(1, 0xFFFF)) << 48),
        _ => pair(id, task),
    }
}

/// Answer places for so many pairs, with something in each: enough of them, more, or too few.
fn answers(random: &mut Random, pairs: usize) -> Vec<u32> {
    let room = match random.below(8) {
        0 => random.below(pairs + 1),
        1 => pairs.saturating_sub(1),
        2..=4 => pairs,
        _ => pairs + random.below(8),
    };
    let filler = random.word();
    (0..room as u32).map(|at| filler.wrapping_add(at)).collect()
}
