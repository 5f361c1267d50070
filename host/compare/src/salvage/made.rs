//! Random files: plans with blocks damaged, lost, exchanged or repeated, and bytes with no plan in them.

use crate::blocks::{damaged_bytes, noise};
use crate::plans::{self, Size};
use crate::random::Random;
use reference::plan::{BLOCK, LONGEST_PLAN, blocks_of};

/// A file, and the room of an output for it: mostly enough, or about some number of blocks.
pub fn file(random: &mut Random, size: Size) -> (Vec<u8>, usize) {
    let mut bytes = match random.below(16) {
        0 => noise(random),
        _ => plan_file(random, size),
    };
    match random.below(8) {
        0 => bytes.truncate(random.below(bytes.len() + 1)),
        1 => bytes.resize(bytes.len() + random.pick(&[1, 100, 511]), 0x5A),
        _ => (),
    }
    let about = BLOCK * random.below(9) + random.pick(&[0, 0, 1, 300]);
    let less = about.saturating_sub(1);
    let room = random.pick(&[LONGEST_PLAN, bytes.len(), about, less]);
    (bytes, room)
}

/// The blocks of a plan in another order, some of them lost or repeated, and mostly with some damage.
fn plan_file(random: &mut Random, size: Size) -> Vec<u8> {
    let whole = blocks_of(&plans::clean(random, size));
    let mut blocks: Vec<&[u8]> = whole.chunks(BLOCK).collect();
    if random.once_in(3) {
        random.shuffle(&mut blocks);
    }
    if random.once_in(3) && blocks.len() > 1 {
        blocks.remove(random.below(blocks.len()));
    }
    if random.once_in(3) {
        blocks.insert(random.below(blocks.len() + 1), random.pick(&blocks));
    }
    match random.once_in(4) {
        true => blocks.concat(),
        false => damaged_bytes(random, blocks.concat()),
    }
}
