//! Outputs that are too short by one, exact, and longer.

use super::converted;
use crate::salvage::mixed;
use crate::session::Session;
use reference::plan::{BLOCK, Plan, blocks_of};
use reference::samples::{deferrable, full, periodic};

/// Each number of blocks, of all sorts, all Deferrable or all Periodic, right or with one of them refused, with outputs
/// about each number of blocks.
pub fn compare(session: &mut Session) {
    for plan in [mixed(), deferrable(full()), periodic(mixed())] {
        for count in 1..=plan.count {
            let mut bytes = blocks_of(&Plan { count, ..plan });
            rooms(session, &bytes);
            for refused in [0, bytes.len() - 100] {
                bytes[refused] ^= 1;
                rooms(session, &bytes);
                bytes[refused] ^= 1;
            }
            bytes.push(0);
            rooms(session, &bytes);
        }
    }
}

/// A byte less than each number of blocks, as many bytes, and some more.
fn rooms(session: &mut Session, plan: &[u8]) {
    for blocks in 0..=9 {
        let exact = BLOCK * blocks;
        for room in [exact.saturating_sub(1), exact, exact + 1, exact + 200] {
            converted(session, plan, room);
        }
    }
}
