//! Random plans to convert, and outputs for them.

use crate::blocks::{damaged_bytes, noise};
use crate::plans::{self, Size};
use crate::random::Random;
use reference::plan::{LONGEST_PLAN, blocks_of};

/// The bytes of a plan, which mostly has Deferrable guests.
pub fn old_plan(random: &mut Random, size: Size) -> Vec<u8> {
    blocks_of(&plans::clean(random, size))
}

/// Such bytes, now and then damaged, or bytes with no plan in them; and the room of an output: mostly enough, or about
/// the plan's length.
pub fn plan(random: &mut Random, size: Size) -> (Vec<u8>, usize) {
    let old = old_plan(random, size);
    let bytes = match random.below(8) {
        0 => noise(random),
        1 | 2 => damaged_bytes(random, old),
        _ => old,
    };
    let (length, any) = (bytes.len(), random.below(LONGEST_PLAN + 1));
    let less = length.saturating_sub(1);
    let room = random.pick(&[LONGEST_PLAN, length, length + 1, less, any]);
    (bytes, room)
}
