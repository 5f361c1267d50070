//! Orders for a guest's tasks.

use super::{Case, FILES, PLACED, case, ours, plans, same};
use crate::inputs;
use std::hint::black_box;

pub fn all() -> Vec<Case> {
    vec![
        ordered("order-plan-a", inputs::plan_a_exchanged(), 9, 0),
        ordered("order-full", inputs::descending(), 8, 0),
        ordered("order-none", inputs::no_order(), 8, 22),
        ordered_in_place("order-plan-a-in-place", inputs::plan_a_exchanged(), 9),
    ]
}

/// An order for the lowest guest's tasks, which is refused by this number.
fn ordered(name: &'static str, bytes: Vec<u8>, id: u32, number: u32) -> Case {
    let (product, plain) = plans(&bytes);
    let lowest = plain.listed().len() - 1;
    let refused = plain.ordered(id).err().unwrap_or_default();
    assert_eq!(refused.number, number, "{name}");
    case(
        name,
        FILES,
        move || {
            let outcome = ours::order(black_box(&product), id);
            told(outcome.refusal.number, &outcome.plan.guests[lowest].run)
        },
        move || {
            let outcome = same::order(*black_box(&plain), id);
            told(outcome.refusal.number, &outcome.plan.guests[lowest].run)
        },
        move || match black_box(&plain).ordered(id) {
            Ok((_, guest)) => told(0, &guest.run),
            Err(refusal) => told(refusal.number, &plain.guests[lowest].run),
        },
    )
}

/// An order for the lowest guest's tasks in a plan that stays where it lies, the guest being put back each time; plain
/// Rust in place on both sides.
fn ordered_in_place(name: &'static str, bytes: Vec<u8>, id: u32) -> Case {
    let (mut product, plain) = plans(&bytes);
    let lowest = plain.listed().len() - 1;
    let before = product.guests[lowest];
    case(
        name,
        PLACED,
        move || {
            let plan = black_box(&mut product);
            let refusal = ours::order_in(plan, id);
            let told = told(refusal.number, &plan.guests[lowest].run);
            plan.guests[lowest] = before;
            told
        },
        sorted_in_place(plain, lowest, id),
        sorted_in_place(plain, lowest, id),
    )
}

fn sorted_in_place(mut placed: plain::Plan, lowest: usize, id: u32) -> impl FnMut() -> u64 {
    let before = placed.guests[lowest];
    move || {
        let plan = black_box(&mut placed);
        let refusal = plan.order(id).err().unwrap_or_default();
        let told = told(refusal.number, &plan.guests[lowest].run);
        plan.guests[lowest] = before;
        told
    }
}

/// What shows that all sides do the same: the refusal, and the runs of the highest tasks.
fn told(number: u32, run: &[u32; 16]) -> u64 {
    u64::from(number) + 100 * u64::from(run[0]) + u64::from(run[1])
}
