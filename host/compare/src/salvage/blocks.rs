//! Blocks of a file that are damaged in every way, and in every two ways.

use super::{mixed, salvaged, small_plans, whole};
use crate::bound::put;
use crate::pairs::{pairs, wrong_words};
use crate::session::Session;
use reference::plan::{BLOCK, LONGEST_PLAN, blocks_of, seal};
use reference::samples::{deferrable, plan_a, plan_a_bound};

pub fn compare(session: &mut Session) {
    right_files(session);
    damaged_bytes(session);
    pairs_of_damages(session);
    places(session);
    kinds(session);
}

/// Files with nothing wrong.
fn right_files(session: &mut Session) {
    for plan in small_plans().into_iter().chain([mixed()]) {
        whole(session, &blocks_of(&plan));
    }
}

/// Each byte of some files damaged in turn, the block's check as it was and made anew; a long file in one way alone.
fn damaged_bytes(session: &mut Session) {
    let ways = [1, 0x80, 0xFF];
    for (plan, ways) in [
        (plan_a(), &ways[..]),
        (deferrable(plan_a_bound(1)), &ways),
        (mixed(), &ways[..1]),
    ] {
        let right = blocks_of(&plan);
        for at in 0..right.len() {
            for damage in ways {
                let mut file = right.clone();
                file[at] ^= damage;
                salvaged(session, &file, LONGEST_PLAN);
                file.chunks_mut(BLOCK).for_each(seal);
                salvaged(session, &file, LONGEST_PLAN);
            }
        }
    }
}

/// Every pair of damages in a block and in two, so that every order of reasons is met.
fn pairs_of_damages(session: &mut Session) {
    let plan = plan_a_bound(1);
    let words = [wrong_words(&plan, 0), wrong_words(&plan, 1)].concat();
    for (first, second) in pairs(&words) {
        let mut file = blocks_of(&plan);
        for (at, word) in [first, second] {
            file[at..at + 4].copy_from_slice(&word.to_le_bytes());
        }
        salvaged(session, &file, LONGEST_PLAN);
        file.chunks_mut(BLOCK).for_each(seal);
        whole(session, &file);
    }
}

/// Blocks that carry any place.
fn places(session: &mut Session) {
    let edges = [0, 1, 2, 7, 8, 9, 255, 256, 257, 0x0107, 0x8000, u16::MAX];
    for (first, second) in pairs(&edges) {
        let mut file = blocks_of(&plan_a_bound(1));
        for (place, block) in [first, second].into_iter().zip(file.chunks_mut(BLOCK)) {
            put(block, 2, place);
            seal(block);
        }
        whole(session, &file);
    }
}

/// Blocks of each kind with marks or none and each value of byte 22, behind one that is dropped, so that they move.
fn kinds(session: &mut Session) {
    for kind in [0, 1, 2, 3, 258] {
        for marks in [0, 1, 3, 4, 0x8000] {
            for server in 0..=u8::MAX {
                for beside in [0, 1] {
                    let mut file = blocks_of(&plan_a_bound(1));
                    let (lost, block) = file.split_at_mut(BLOCK);
                    lost[100] ^= 1;
                    put(block, 0, kind);
                    put(block, 20, marks);
                    put(block, 22, u16::from_le_bytes([server, beside]));
                    seal(block);
                    salvaged(session, &file, LONGEST_PLAN);
                }
            }
        }
    }
}
