//! The one form of a plan as bytes: what the writer writes, and the block that old plans have for a Deferrable guest.

use super::{BLOCK, DEFERRABLE, EXTENDED, KIND, SERVER, put_short, seal, written};
use crate::plan::{Guest, Plan};

/// A plan is its guests' blocks in order.
pub fn blocks_of(plan: &Plan) -> Vec<u8> {
    (0..)
        .zip(plan.listed())
        .flat_map(|(place, guest)| block_of(guest, place))
        .collect()
}

/// A guest's block at a place, in P9's one form: that of a Deferrable guest, which the writer no longer writes, is of
/// kind 2 with a 1 in byte 22.
pub fn block_of(guest: &Guest, place: u16) -> [u8; BLOCK] {
    let mut block = written(guest, place);
    if guest.is_deferrable() {
        put_short(&mut block, KIND, EXTENDED);
        block[SERVER] = DEFERRABLE;
        seal(&mut block);
    }
    block
}
