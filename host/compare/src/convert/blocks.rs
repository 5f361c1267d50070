//! Blocks of each kind with all that can stand in them, and plans that are damaged in every way, and in every two ways.

use super::{converted, whole};
use crate::bound::{each_marks, put};
use crate::pairs::{pairs, wrong_words};
use crate::salvage::mixed;
use crate::session::Session;
use reference::plan::{BLOCK, Guest, LONGEST_PLAN, MOST_TASKS, Plan, blocks_of, seal};
use reference::samples::{deferrable, plan_a, plan_a_bound};

pub fn compare(session: &mut Session) {
    kinds(session);
    marks(session);
    lengths(session);
    damaged_bytes(session);
    pairs_of_damages(session);
    repeated(session);
}

/// A block of each kind with marks or none and each value of byte 22, behind a right one.
fn kinds(session: &mut Session) {
    let right = blocks_of(&plan_a_bound(1));
    for kind in [0, 1, 2, 3, 258] {
        for marks in [0, 1, 3, 4, 0x8000] {
            for server in 0..=u8::MAX {
                for beside in [0, 1] {
                    let mut plan = right.clone();
                    let block = &mut plan[BLOCK..];
                    put(block, 0, kind);
                    put(block, 20, marks);
                    put(block, 22, u16::from_le_bytes([server, beside]));
                    seal(block);
                    converted(session, &plan, plan.len() + 1);
                }
            }
        }
    }
}

/// A Deferrable guest with each number of tasks, and each marks that stand for them.
fn marks(session: &mut Session) {
    for count in 1..=MOST_TASKS {
        for marks in each_marks() {
            let guest = Guest::new(5, 2, 4, &vec![[1, 40, 40]; count]);
            let old = Guest {
                marks,
                deferrable: 1,
                ..guest
            };
            whole(session, &blocks_of(&Plan::new(&[old])));
        }
    }
}

/// Every length from nothing to more than a plan, with an output that is long enough and one that is not.
fn lengths(session: &mut Session) {
    let mut bytes = blocks_of(&deferrable(mixed()));
    bytes.resize(LONGEST_PLAN + BLOCK + 2, 0);
    for length in 0..=bytes.len() {
        converted(session, &bytes[..length], LONGEST_PLAN);
        converted(session, &bytes[..length], length / 2);
    }
    for length in [65_536, 65_536 + BLOCK] {
        bytes.resize(length, 0);
        converted(session, &bytes, length);
    }
}

/// Each byte of some plans damaged in turn, the block's check as it was and made anew; a long plan in one way alone.
fn damaged_bytes(session: &mut Session) {
    let ways = [1, 0x80, 0xFF];
    for (plan, ways) in [
        (deferrable(plan_a()), &ways[..]),
        (deferrable(plan_a_bound(1)), &ways),
        (mixed(), &ways[..1]),
    ] {
        let right = blocks_of(&plan);
        for at in 0..right.len() {
            for damage in ways {
                let mut bytes = right.clone();
                bytes[at] ^= damage;
                converted(session, &bytes, bytes.len() + 1);
                bytes.chunks_mut(BLOCK).for_each(seal);
                converted(session, &bytes, bytes.len() + 1);
            }
        }
    }
}

/// Every pair of damages in a block and in two, so that every order of refusals is met, with an output that is long
/// enough and one that is not.
fn pairs_of_damages(session: &mut Session) {
    let plan = deferrable(plan_a_bound(1));
    let words = [wrong_words(&plan, 0), wrong_words(&plan, 1)].concat();
    for (first, second) in pairs(&words) {
        let mut bytes = blocks_of(&plan);
        for (at, word) in [first, second] {
            bytes[at..at + 4].copy_from_slice(&word.to_le_bytes());
        }
        converted(session, &bytes, bytes.len());
        // The check of the second damage's block is then the one that is wrong.
        seal(&mut bytes[first.0 / BLOCK * BLOCK..][..BLOCK]);
        converted(session, &bytes, bytes.len());
        bytes.chunks_mut(BLOCK).for_each(seal);
        converted(session, &bytes, bytes.len() - 1);
        whole(session, &bytes);
    }
}

/// Any block of a plan at the place of any other, with the place it carries and with the other's.
fn repeated(session: &mut Session) {
    let right = blocks_of(&mixed());
    for (from, to) in pairs(&[0, 1, 2, 3, 4, 5, 6, 7]) {
        let mut plan = right.clone();
        plan.copy_within(BLOCK * from..BLOCK * (from + 1), BLOCK * to);
        converted(session, &plan, plan.len());
        let block = &mut plan[BLOCK * to..BLOCK * (to + 1)];
        block[2] = to as u8;
        seal(block);
        converted(session, &plan, plan.len());
    }
}
