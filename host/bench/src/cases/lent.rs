//! Acceptances and smallest capacities of a plan that stays where it lies; plain Rust by reference on both sides.

use super::{Case, PLACED, case, plans};
use crate::inputs;
use std::hint::black_box;

pub fn all() -> Vec<Case> {
    vec![
        accept("accept-plan-a-in-place", inputs::plan_a()),
        accept("accept-near-a-million-in-place", inputs::near_a_million()),
        capacity("capacity-plan-a-in-place", inputs::plan_a(), 9),
    ]
}

fn accept(name: &'static str, bytes: Vec<u8>) -> Case {
    let (product, plain) = plans(&bytes);
    let by_reference = move || u64::from(black_box(&plain).accepted().expect("a plan"));
    case(
        name,
        PLACED,
        move || u64::from(black_box(&product).accepted().expect("a plan")),
        by_reference,
        by_reference,
    )
}

fn capacity(name: &'static str, bytes: Vec<u8>, id: u32) -> Case {
    let (product, plain) = plans(&bytes);
    let by_reference = move || u64::from(black_box(&plain).smallest_capacity(id).expect("one"));
    case(
        name,
        PLACED,
        move || u64::from(black_box(&product).smallest_capacity(id).expect("one")),
        by_reference,
        by_reference,
    )
}
