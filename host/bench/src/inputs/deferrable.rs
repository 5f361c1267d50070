//! Old plans, with every guest Deferrable.

use super::{blocks, guests, plan_a, task_near_a_million};
use plain::Guest;
use plain::block::{BLOCK, seal};

/// Plan A with both guests Deferrable.
pub fn deferrable_plan_a() -> Vec<u8> {
    deferrable(plan_a())
}

/// The same of the plan near a million, with half of the capacities and runs: all are met again.
pub fn deferrable_near_a_million() -> Vec<u8> {
    let halved = guests(task_near_a_million).map(|guest| Guest {
        capacity: guest.capacity / 2,
        run: guest.run.map(|run| run / 2),
        ..guest
    });
    deferrable(blocks(&halved.collect::<Vec<_>>()))
}

/// A plan's blocks as they were written for Deferrable guests, which the writer refuses now.
fn deferrable(mut plan: Vec<u8>) -> Vec<u8> {
    for block in plan.as_chunks_mut::<BLOCK>().0 {
        block[0] = 2;
        block[22] = 1;
        seal(block);
    }
    plan
}
