//! What is tried before each tick of a history: releases one by one, and sheets of them.

use crate::random::Random;
use crate::show;
use reference::dispatcher::LONGEST_SHEET;
use std::fmt;

/// One call before a tick: a release of a pair, or a sheet of pairs with room for so many answers.
#[derive(Clone)]
pub enum Tried {
    Single(u64),
    Sheet(Vec<u64>, usize),
}

/// What is tried before each tick.
pub type Script = Vec<Vec<Tried>>;

impl fmt::Display for Tried {
    fn fmt(&self, to: &mut fmt::Formatter<'_>) -> fmt::Result {
        match self {
            Tried::Single(pair) => write!(to, "release {}", show::pairs(&[*pair])),
            Tried::Sheet(pairs, room) => {
                write!(to, "sheet {}, {room} answer places", show::pairs(pairs))
            }
        }
    }
}

/// Whether a sheet of so many pairs, with room for so many answers, is refused whole by a state in its ranges.
pub fn is_refused_whole(pairs: usize, room: usize) -> bool {
    pairs > LONGEST_SHEET || room < pairs
}

/// A sheet of some pairs that is refused whole: it has one answer place too few, or too many pairs.
pub fn refused_whole(random: &mut Random, pairs: &[u64]) -> Tried {
    let many = LONGEST_SHEET + 1;
    match random.once_in(2) {
        true => Tried::Sheet(pairs.to_vec(), pairs.len() - 1),
        false => Tried::Sheet(pairs.repeat(many)[..many].to_vec(), many),
    }
}

/// A script with as few calls, and in its sheets as few pairs, as still fail.
pub fn fewest(script: Script, fails: impl Fn(&Script) -> bool) -> Script {
    let mut best = script;
    for time in (0..best.len()).rev() {
        for at in (0..best[time].len()).rev() {
            let mut fewer = best.clone();
            fewer[time].remove(at);
            match fails(&fewer) {
                true => best = fewer,
                false => best = fewer_pairs(best, [time, at], &fails),
            }
        }
    }
    best
}

/// The script with as few pairs in one of its sheets as still fail.
fn fewer_pairs(script: Script, [time, at]: [usize; 2], fails: &impl Fn(&Script) -> bool) -> Script {
    let mut best = script;
    let Tried::Sheet(pairs, _) = &best[time][at] else {
        return best;
    };
    for gone in (0..pairs.len()).rev() {
        let mut fewer = best.clone();
        if let Tried::Sheet(pairs, _) = &mut fewer[time][at] {
            pairs.remove(gone);
        }
        if fails(&fewer) {
            best = fewer;
        }
    }
    best
}
