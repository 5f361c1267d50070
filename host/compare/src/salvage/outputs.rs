//! Outputs that are too short by one, exact, and longer.

use super::{mixed, salvaged};
use crate::session::Session;
use reference::plan::{BLOCK, blocks_of};

/// Each number of blocks, of which some are lost or all are right, with outputs about each number of blocks.
pub fn compare(session: &mut Session) {
    let right = blocks_of(&mixed());
    for blocks in 0..=8 {
        for gone in [0, 1, 0b10, 0b0101_0101, 0b1111_0000, 0b1000_0000, 0xFF] {
            let mut file = right[..BLOCK * blocks].to_vec();
            for (at, block) in file.chunks_mut(BLOCK).enumerate() {
                block[40] ^= gone >> at & 1;
            }
            for tail in [0, 1, 511] {
                file.resize((BLOCK * blocks + tail).min(8 * BLOCK), 1);
                rooms(session, &file);
            }
        }
    }
}

/// A byte less than each number of blocks, as many bytes, and some more.
fn rooms(session: &mut Session, file: &[u8]) {
    for blocks in 0..=8 {
        let exact = BLOCK * blocks;
        for room in [exact.saturating_sub(1), exact, exact + 1, exact + 200] {
            salvaged(session, file, room);
        }
    }
}
