//! A plan file that lost parts.

use super::near_a_million;
use plain::block::BLOCK;

/// A plan of 8 blocks with a bit of every second one turned over.
pub fn half_damaged() -> Vec<u8> {
    let mut file = near_a_million();
    for block in file.chunks_mut(BLOCK).step_by(2) {
        block[40] ^= 1;
    }
    file
}
