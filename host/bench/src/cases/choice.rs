//! The least capacities of a plan.

use super::{Case, FILES, case, ours, plans, same};
use crate::inputs;
use std::hint::black_box;

pub fn all() -> Vec<Case> {
    vec![
        chosen("least-capacities-plan-a", inputs::plan_a(), 6),
        chosen("least-capacities-full", inputs::growing(), 2_547),
    ]
}

/// The least capacities, of which the lowest guest's is this one: it shows that all sides do the same, since it hangs
/// on all those above.
fn chosen(name: &'static str, bytes: Vec<u8>, capacity: u32) -> Case {
    let (product, plain) = plans(&bytes);
    let lowest = plain.listed().len() - 1;
    let found = plain.least_capacities().expect("a choice");
    assert_eq!(found.guests[lowest].capacity, capacity, "{name}");
    case(
        name,
        FILES,
        move || {
            let outcome = ours::least_capacities(black_box(&product));
            told(outcome.refusal.number, outcome.plan.guests[lowest].capacity)
        },
        move || {
            let outcome = same::least_capacities(*black_box(&plain));
            told(outcome.refusal.number, outcome.plan.guests[lowest].capacity)
        },
        move || match black_box(&plain).least_capacities() {
            Ok(chosen) => told(0, chosen.guests[lowest].capacity),
            Err(refusal) => told(refusal.number, 0),
        },
    )
}

fn told(number: u32, capacity: u32) -> u64 {
    u64::from(number) + 100 * u64::from(capacity)
}
