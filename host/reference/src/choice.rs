//! The least capacities of a plan: from the highest guest down each guest has the smallest that works, under those
//! above at theirs.

#[cfg(test)]
mod tests;

use crate::plan::{Plan, Refusal, well_formed};
use crate::verdict::works;

/// The answer: the plan with only its guests' capacities chosen; on a refusal it is as handed in.
#[derive(Clone, Copy, Debug, Default, PartialEq, Eq)]
pub struct Chosen {
    pub refusal: Refusal,
    pub plan: Plan,
}

/// Chooses the least capacities: the records' order, then 23, a Deferrable guest, then 11 with the place of the first
/// guest at which no capacity works.
pub fn least_capacities(plan: &Plan) -> Chosen {
    let result = chosen(plan);
    Chosen {
        refusal: Refusal::of(&result),
        plan: result.unwrap_or(*plan),
    }
}

fn chosen(plan: &Plan) -> Result<Plan, Refusal> {
    well_formed(plan)?;
    if plan.has_deferrable() {
        return Err(Refusal::new(23, 0));
    }
    let mut chosen = *plan;
    for guest in 0..plan.listed().len() {
        let smallest = smallest(&chosen, guest);
        chosen.guests[guest].capacity = smallest.ok_or(Refusal::new(11, guest as u32))?;
    }
    Ok(chosen)
}

/// The smallest capacity from 1 to the period at which the guest and all above it are fitted and all its tasks are met.
fn smallest(plan: &Plan, guest: usize) -> Option<u32> {
    (1..=plan.guests[guest].period).find(|capacity| works(plan, guest, *capacity))
}
