//! Damaged plan blocks.

use crate::random::Random;
use reference::plan::{BLOCK, LONGEST_PLAN, MOST_TASKS, Plan, blocks_of, seal};

/// A plan's blocks with some damage.
pub fn damaged(random: &mut Random, plan: &Plan) -> Vec<u8> {
    damaged_bytes(random, blocks_of(plan))
}

/// Blocks with some damage, the checks mostly made anew so that deeper refusals are reached.
pub fn damaged_bytes(random: &mut Random, blocks: Vec<u8>) -> Vec<u8> {
    let mut bytes = blocks;
    for _ in 0..random.from(1, 3) {
        damage(random, &mut bytes);
    }
    if !random.once_in(5) {
        bytes.chunks_exact_mut(BLOCK).for_each(seal);
    }
    if random.once_in(12) {
        resize(random, &mut bytes);
    }
    bytes
}

fn damage(random: &mut Random, bytes: &mut [u8]) {
    let at = random.below(bytes.len());
    let start = at / BLOCK * BLOCK;
    let any = random.next() as u8;
    match random.below(8) {
        0 => bytes[at] ^= 1 << random.below(8),
        1 => bytes[at] = random.pick(&[0, 1, 255, any]),
        2 => put(
            bytes,
            start + 4 * random.below(56),
            &random.edge().to_le_bytes(),
        ),
        3 => {
            let short = random.edge() as u16;
            put(
                bytes,
                start + random.pick(&[0, 2, 16, 18, 20]),
                &short.to_le_bytes(),
            );
        }
        4 => put(
            bytes,
            start + random.pick(&[4, 8, 12]),
            &random.edge().to_le_bytes(),
        ),
        5 => bytes.copy_within(
            start..start + BLOCK,
            random.below(bytes.len() / BLOCK) * BLOCK,
        ),
        _ => damage_kind(random, &mut bytes[start..start + BLOCK]),
    }
}

/// Another kind, other marks, another server in byte 22, something behind it, or several of these.
fn damage_kind(random: &mut Random, block: &mut [u8]) {
    if !random.once_in(4) {
        let kind: u16 = random.pick(&[0, 1, 2, 2, 2, 3, 256, 258]);
        put(block, 0, &kind.to_le_bytes());
    }
    if random.once_in(2) {
        let marks = damaged_marks(random, block);
        put(block, 20, &marks.to_le_bytes());
    }
    if random.once_in(2) {
        block[22] = random.pick(&[0, 1, 1, 2, 255]);
    }
    if random.once_in(6) {
        block[23 + random.pick(&[0, 0, 0, 8])] = random.pick(&[1, 7, 128, 255]);
    }
}

/// Marks of some tasks of a block, or of none, or past them.
fn damaged_marks(random: &mut Random, block: &[u8]) -> u16 {
    let tasks = usize::from(block[16]).clamp(1, MOST_TASKS);
    let any = random.next() as u16;
    let first_past = (1_u32 << tasks) as u16;
    random.pick(&[0, 0, 1, 1 << (tasks - 1), first_past, 0x8000, any])
}

fn put(bytes: &mut [u8], at: usize, value: &[u8]) {
    bytes[at..at + value.len()].copy_from_slice(value);
}

/// Another length: none, a byte or a block away, too long, or any.
pub fn resize(random: &mut Random, bytes: &mut Vec<u8>) {
    let length = bytes.len();
    let lengths = [
        0,
        length - 1,
        length + 1,
        length + BLOCK,
        LONGEST_PLAN + BLOCK,
    ];
    let any = random.below(LONGEST_PLAN + 2 * BLOCK);
    let edge = random.pick(&lengths);
    bytes.resize(random.pick(&[edge, any]), 0);
}

/// Bytes with no plan in them, some of whose blocks sum to zero.
pub fn noise(random: &mut Random) -> Vec<u8> {
    let length = BLOCK * random.below(10) + random.pick(&[0, 0, 0, 1, 511]);
    let mut bytes: Vec<u8> = (0..length).map(|_| random.next() as u8).collect();
    if random.once_in(2) {
        for (place, block) in bytes.chunks_exact_mut(BLOCK).enumerate() {
            let kind = random.pick(&[1, 2]);
            block[..4].copy_from_slice(&[kind, 0, place as u8, 0]);
            seal(block);
        }
    }
    bytes
}
