//! Damaged plan files salvaged.

use super::{Case, FILES, case, ours, same};
use crate::inputs;
use plain::salvage::{self, List};
use std::hint::black_box;

pub fn all() -> Vec<Case> {
    vec![
        salvaged("salvage-8-blocks", inputs::near_a_million()),
        salvaged("salvage-half-damaged", inputs::half_damaged()),
    ]
}

fn salvaged(name: &'static str, file: Vec<u8>) -> Case {
    let (one, two) = (file.clone(), file.clone());
    let [mut to_ours, mut to_same, mut to_reference] = [[0; 4_096]; 3];
    let mut list = List::default();
    case(
        name,
        FILES,
        move || {
            let outcome = ours::salvage(black_box(&file), black_box(&mut to_ours));
            told(outcome.written, outcome.fates[7].place, &to_ours)
        },
        move || {
            let outcome = same::salvage(black_box(&one), black_box(&mut to_same));
            told(outcome.written, outcome.fates[7].place, &to_same)
        },
        move || {
            let (out, list) = (black_box(&mut to_reference), black_box(&mut list));
            let written = salvage::salvage(black_box(&two), out, list).expect("something kept");
            told(written, list.fates[7].place, out)
        },
    )
}

/// What shows that all sides do the same: the bytes written, the last block's new place, and the last check written.
fn told(written: u32, place: u32, out: &[u8; 4_096]) -> u64 {
    let check = out[written as usize - 4];
    u64::from(written) + u64::from(place) + u64::from(check)
}
