//! What the desk asks, of the library and of the simple program that tries capacities upward.

use super::{Case, FILES, case, ours, plans, same};
use crate::inputs::desk::{ASKED, Question, questions};
use std::hint::black_box;

/// The desk's answers are to be ten times as fast above this one, and at most a fifth slower elsewhere.
pub const SMALL: u32 = 10_000;
const ABOVE: f64 = 0.1;

/// A case with its answer, if there is any.
pub struct Asked {
    pub answer: Option<u32>,
    pub case: Case,
}

pub fn all() -> Vec<Asked> {
    questions().into_iter().map(asked).collect()
}

fn asked(question: Question) -> Asked {
    let Question { name, answer, plan } = question;
    let (product, plain) = plans(&plan);
    assert_eq!(plain.smallest_capacity(ASKED).ok(), answer, "{name}");
    let aim = match answer {
        Some(answer) if answer > SMALL => ABOVE,
        _ => FILES,
    };
    let case = case(
        name,
        aim,
        move || {
            let verdict = ours::smallest_capacity(black_box(&product), ASKED);
            told(verdict.number, verdict.ticks)
        },
        move || {
            let verdict = same::smallest_capacity_upward(*black_box(&plain), ASKED);
            told(verdict.number, verdict.ticks)
        },
        move || match black_box(&plain).smallest_capacity_upward(ASKED) {
            Ok(ticks) => told(0, ticks),
            Err(refusal) => told(refusal.number, 0),
        },
    );
    Asked { answer, case }
}

/// What shows that all sides do the same: the refusal and the answer.
fn told(number: u32, ticks: u32) -> u64 {
    u64::from(number) << 32 | u64::from(ticks)
}
