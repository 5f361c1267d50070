//! Old plans converted.

use super::{Case, FILES, case, ours, same};
use crate::inputs;
use plain::block::BLOCK;
use std::hint::black_box;

pub fn all() -> Vec<Case> {
    vec![
        converted("convert-plan-a", inputs::deferrable_plan_a()),
        converted("convert-8-blocks", inputs::deferrable_near_a_million()),
    ]
}

fn converted(name: &'static str, plan: Vec<u8>) -> Case {
    let (one, two) = (plan.clone(), plan.clone());
    let [mut to_ours, mut to_same, mut to_reference] = [[0; 8 * BLOCK]; 3];
    case(
        name,
        FILES,
        move || {
            let refusal = ours::convert(black_box(&plan), black_box(&mut to_ours));
            told(refusal.number, &to_ours)
        },
        move || {
            let refusal = same::convert(black_box(&one), black_box(&mut to_same));
            told(refusal.number, &to_same)
        },
        move || {
            let out = black_box(&mut to_reference);
            plain::convert::convert(black_box(&two), out).expect("a plan");
            told(0, out)
        },
    )
}

/// What shows that all sides do the same: the refusal, and the second block's kind and check.
fn told(number: u32, out: &[u8; 8 * BLOCK]) -> u64 {
    u64::from(number) + u64::from(out[BLOCK]) + u64::from(out[2 * BLOCK - 4])
}
