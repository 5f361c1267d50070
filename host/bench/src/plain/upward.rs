//! The smallest capacity as a simple program finds it, which the desk's answers are measured against.

use crate::verdict::{all_met, guest_response};
use crate::{Guest, Plan, Refusal};

impl Plan {
    pub fn smallest_capacity_upward(&self, id: u32) -> Result<u32, Refusal> {
        self.searched(id, upward)
    }
}

/// Tries the capacities upward from 1 to the period. It stops at the first that is unfit, since all larger ones are
/// unfit too: a simple program is simple, but not foolish.
fn upward(above: &[Guest], own: &Guest) -> Option<u32> {
    (1..=own.period)
        .take_while(|capacity| guest_response(above, *capacity, own.period).is_some())
        .find(|capacity| all_met(above, own, *capacity))
}
