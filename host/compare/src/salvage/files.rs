//! Files of every length, and with blocks lost, exchanged and repeated.

use super::{mixed, salvaged, whole};
use crate::pairs::pairs;
use crate::session::Session;
use reference::plan::{BLOCK, LONGEST_PLAN, blocks_of, seal};
use reference::samples::plan_a;

pub fn compare(session: &mut Session) {
    lengths(session);
    too_long(session);
    lost(session);
    exchanged(session);
    repeated(session);
    ids_of_dropped_blocks(session);
}

/// A file cut at every length, from its start and up to its end, where its blocks are whole and where they are not.
fn lengths(session: &mut Session) {
    let right = blocks_of(&mixed());
    for length in 0..=right.len() {
        salvaged(session, &right[..length], LONGEST_PLAN);
        salvaged(session, &right[right.len() - length..], LONGEST_PLAN);
    }
    for length in 0..=BLOCK {
        salvaged(session, &vec![0; length], BLOCK);
        salvaged(session, &vec![0xFF; length], 0);
    }
}

/// Files above 4,096 bytes, of blocks that are right, of none, and of one more than fits.
fn too_long(session: &mut Session) {
    let right = blocks_of(&mixed());
    let one_more = [&right[..], &right[..BLOCK]].concat();
    for length in [4_097, 4_098, 4_600, 4_607, 4_608] {
        for room in [0, 512, LONGEST_PLAN, 2 * LONGEST_PLAN] {
            salvaged(session, &one_more[..length], room);
            salvaged(session, &vec![0; length], room);
        }
    }
    for length in [8_192, 65_536, 65_536 + 512, 66_048 + 1] {
        let mut long = right.clone();
        long.resize(length, 0);
        salvaged(session, &long, 2 * LONGEST_PLAN);
    }
}

/// Each set of blocks lost in turn: overwritten, or away with those behind moved up.
fn lost(session: &mut Session) {
    let right = blocks_of(&mixed());
    for gone in 0..1 << 8 {
        let is_gone = |at: usize| gone >> at & 1 == 1;
        let mut file = right.clone();
        let blocks = file.chunks_mut(BLOCK).enumerate();
        for (_, block) in blocks.filter(|(at, _)| is_gone(*at)) {
            block.fill(gone as u8);
        }
        whole(session, &file);
        let left = right.chunks(BLOCK).enumerate();
        let left: Vec<&[u8]> = left
            .filter(|(at, _)| !is_gone(*at))
            .map(|(_, block)| block)
            .collect();
        whole(session, &left.concat());
    }
}

/// Any two blocks exchanged, and all of them turned about.
fn exchanged(session: &mut Session) {
    let right = blocks_of(&mixed());
    let mut blocks: Vec<&[u8]> = right.chunks(BLOCK).collect();
    for (one, other) in pairs(&[0, 1, 2, 3, 4, 5, 6, 7]) {
        blocks.swap(one, other);
        whole(session, &blocks.concat());
        blocks.swap(one, other);
    }
    for _ in 0..blocks.len() {
        blocks.rotate_left(1);
        whole(session, &blocks.concat());
    }
}

/// Any block in the place of any other, which then is away, with the place it carries and with the other's.
fn repeated(session: &mut Session) {
    let right = blocks_of(&mixed());
    for (from, to) in pairs(&[0, 1, 2, 3, 4, 5, 6, 7]) {
        let mut file = right.clone();
        file.copy_within(BLOCK * from..BLOCK * (from + 1), BLOCK * to);
        whole(session, &file);
        let block = &mut file[BLOCK * to..BLOCK * (to + 1)];
        block[2] = to as u8;
        seal(block);
        whole(session, &file);
    }
    for times in 1..=9 {
        salvaged(session, &right[..BLOCK].repeat(times), LONGEST_PLAN);
    }
}

/// Three blocks of one id, each of them right or dropped by a reason of its own, and a right one of another behind.
fn ids_of_dropped_blocks(session: &mut Session) {
    let file = blocks_of(&plan_a());
    let (seven, nine) = file.split_at(BLOCK);
    // Nothing; the kind, the capacity, a byte that must be zero, a run; and last the check.
    let damages = [(0, 1), (0, 3), (8, 0), (23, 1), (32, 0), (511, 9)];
    let damaged = damages.map(|(at, value)| {
        let mut block = seven.to_vec();
        block[at] = value;
        if at < 508 {
            seal(&mut block);
        }
        block
    });
    for (first, second) in pairs(&[0, 1, 2, 3, 4, 5]) {
        for third in &damaged {
            let file = [&damaged[first], &damaged[second], &third[..], nine].concat();
            whole(session, &file);
        }
    }
}
