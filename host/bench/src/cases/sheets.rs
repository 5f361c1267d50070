//! Sheets of releases, and the same pairs released one by one.

use super::dispatcher::states;
use super::{Case, DISPATCHER, PLACED, case, ours, same};
use crate::inputs;
use std::hint::black_box;

/// A sheet into a fresh state of a full plan each time; in place, its jobs are taken back.
pub fn sheet(name: &'static str, bytes: Vec<u8>, pairs: Vec<u64>) -> Case {
    let (product, plain) = states(&bytes, false);
    let (one, two) = (pairs.clone(), pairs.clone());
    let [mut to_ours, mut to_same] = [(); 2].map(|()| vec![0; pairs.len()]);
    case(
        name,
        DISPATCHER,
        move || {
            let outcome = ours::sheet(black_box(&product), black_box(&pairs), &mut to_ours);
            told(outcome.dispatcher.rest[127], &to_ours)
        },
        move || {
            let outcome = same::sheet(*black_box(&plain), black_box(&one), &mut to_same);
            told(outcome.dispatcher.rest[127], &to_same)
        },
        taken_in_place(plain, two),
    )
}

/// The same into a state that stays where it lies; plain Rust in place on both sides.
pub fn sheet_in_place(name: &'static str, bytes: Vec<u8>, pairs: Vec<u64>) -> Case {
    let (mut product, plain) = states(&bytes, false);
    let (one, two) = (pairs.clone(), pairs.clone());
    let mut answers = vec![0; pairs.len()];
    case(
        name,
        PLACED,
        move || {
            let state = black_box(&mut product);
            let taken = state.sheet(black_box(&pairs), &mut answers);
            taken.expect("not refused whole");
            told(taken_back(&mut state.rest, &mut state.wait), &answers)
        },
        taken_in_place(plain, one),
        taken_in_place(plain, two),
    )
}

fn taken_in_place(mut placed: plain::Dispatcher, pairs: Vec<u64>) -> impl FnMut() -> u64 {
    let mut answers = vec![0; pairs.len()];
    move || {
        let state = black_box(&mut placed);
        let taken = state.sheet(black_box(&pairs), &mut answers);
        taken.expect("not refused whole");
        told(taken_back(&mut state.rest, &mut state.wait), &answers)
    }
}

/// Each pair by a call of its own, each into the state that the one before gave back.
pub fn singles(name: &'static str, pairs: Vec<u64>) -> Case {
    let (product, plain) = states(&inputs::endless(), false);
    let mut placed = plain;
    let (one, two) = (pairs.clone(), pairs.clone());
    let [mut to_ours, mut to_same, mut to_reference] = [(); 3].map(|()| vec![0; pairs.len()]);
    case(
        name,
        DISPATCHER,
        move || {
            let mut state = product;
            one_by_one(&pairs, &mut to_ours, |id, task| {
                let outcome = ours::release(black_box(&state), id, task);
                state = outcome.dispatcher;
                outcome.refusal.number
            });
            told(state.rest[127], &to_ours)
        },
        move || {
            let mut state = plain;
            one_by_one(&one, &mut to_same, |id, task| {
                let outcome = same::release(*black_box(&state), id, task);
                state = outcome.dispatcher;
                outcome.refusal.number
            });
            told(state.rest[127], &to_same)
        },
        move || {
            one_by_one(&two, &mut to_reference, |id, task| {
                let taken = black_box(&mut placed).release(id, task);
                taken.err().unwrap_or_default().number
            });
            let last = taken_back(&mut placed.rest, &mut placed.wait);
            told(last, &to_reference)
        },
    )
}

/// The answer to each pair by a call of its own, which takes the guest's id and the task's number.
fn one_by_one(pairs: &[u64], answers: &mut [u32], mut release: impl FnMut(u32, u32) -> u32) {
    for (pair, answer) in black_box(pairs).iter().zip(answers) {
        *answer = release((pair >> 16) as u32, (pair & 0xFFFF) as u32);
    }
}

/// The run left of the last task; all jobs are taken back.
fn taken_back(rest: &mut [u32; 128], wait: &mut [u32; 128]) -> u32 {
    let last = rest[127];
    *rest = [0; 128];
    *wait = [0; 128];
    last
}

/// What shows that all sides do the same: the run left of the last task, and the first and the last answer.
fn told(rest: u32, answers: &[u32]) -> u64 {
    let answers = black_box(answers);
    u64::from(rest) + u64::from(answers[0]) + u64::from(answers[answers.len() - 1])
}
