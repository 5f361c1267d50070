//! The smallest capacity, by the product's search: task by task, each from the capacity of those above it on, the first
//! capacities upward, then doubling, then halving.

use crate::verdict::{guest_response, met};
use crate::{Guest, Plan, Refusal};

/// The capacities that are tried one by one, so that a small answer costs no more than trying upward does.
const ONE_BY_ONE: u32 = 32;

impl Plan {
    pub fn smallest_capacity(&self, id: u32) -> Result<u32, Refusal> {
        self.searched(id, smallest)
    }

    /// What a search finds for the guest, given those above it: under an unfit guest no capacity works, and nothing is
    /// searched.
    pub(crate) fn searched(
        &self,
        id: u32,
        search: impl Fn(&[Guest], &Guest) -> Option<u32>,
    ) -> Result<u32, Refusal> {
        self.check()?;
        let guest = self.place_of(id)?;
        let (above, own) = (&self.guests[..guest], &self.guests[guest]);
        let found = match guest == 0 || self.judged(guest - 1) {
            true => search(above, own),
            false => None,
        };
        found.ok_or(Refusal::new(11, 0))
    }
}

/// A task that is met stays met at each larger capacity that is fitted, so the capacity only rises from task to task.
/// Where 1 is unfit all are.
pub(crate) fn smallest(above: &[Guest], own: &Guest) -> Option<u32> {
    guest_response(above, 1, own.period)?;
    (0..own.tasks as usize).try_fold(1, |from, task| smallest_from(above, own, task, from))
}

/// The first capacity, which is fitted, is tried by itself, since most tasks are met where those above them are.
fn smallest_from(above: &[Guest], own: &Guest, task: usize, from: u32) -> Option<u32> {
    match met(above, own, from, task) {
        true => Some(from),
        false => smallest_in(above, own, task, from + 1, own.period + 1),
    }
}

/// Of the capacities from `low` on and below `high` one is tried at a time: one that is not fitted leaves only smaller
/// ones, and one at which the task is unmet only larger ones.
fn smallest_in(
    above: &[Guest],
    own: &Guest,
    task: usize,
    mut low: u32,
    mut high: u32,
) -> Option<u32> {
    let mut best = None;
    while low < high {
        let capacity = next(low, high, own.period);
        if guest_response(above, capacity, own.period).is_none() {
            high = capacity;
        } else if met(above, own, capacity, task) {
            (high, best) = (capacity, Some(capacity));
        } else {
            low = capacity + 1;
        }
    }
    best
}

/// The capacity to try: first one by one; then twice the lowest, while none is known to work or to be unfit; then the
/// middle.
fn next(low: u32, high: u32, period: u32) -> u32 {
    if low <= ONE_BY_ONE {
        low
    } else if high <= period {
        low + (high - low) / 2
    } else {
        (2 * low).min(high - 1)
    }
}
