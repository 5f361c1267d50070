//! Smaller sheets of releases.

use super::{each, of_state, smaller_numbers};
use crate::call::Call;
use reference::dispatcher::Dispatcher;

/// Sheets with fewer pairs, then with fewer answer places, then of a smaller state.
pub fn smaller(state: &Dispatcher, pairs: &[u64], answers: &[u32]) -> Vec<Call> {
    let sheet = |pairs: &[u64], answers: &[u32]| {
        Call::Sheet(Box::new(*state), pairs.to_vec(), answers.to_vec())
    };
    let mut calls = Vec::new();
    for (pairs, answers) in fewer_pairs(pairs, answers) {
        calls.push(sheet(&pairs, &answers));
    }
    calls.extend(each(smaller_numbers(answers.len() as u32), |room| {
        sheet(pairs, &answers[..room as usize])
    }));
    calls.extend(of_state(state, |state| {
        Call::Sheet(state, pairs.to_vec(), answers.to_vec())
    }));
    calls
}

/// One half of the pairs, or all but one; the answer places are as they were, or as many fewer.
fn fewer_pairs(pairs: &[u64], answers: &[u32]) -> Vec<(Vec<u64>, Vec<u32>)> {
    let half = pairs.len() / 2;
    let mut fewer: Vec<Vec<u64>> = Vec::new();
    if half > 0 {
        fewer.push(pairs[..half].to_vec());
        fewer.push(pairs[half..].to_vec());
    }
    for gone in 0..pairs.len() {
        let mut others = pairs.to_vec();
        others.remove(gone);
        fewer.push(others);
    }
    let mut all = Vec::new();
    for others in fewer {
        let room = answers.len().saturating_sub(pairs.len() - others.len());
        all.push((others.clone(), answers[..room].to_vec()));
        all.push((others, answers.to_vec()));
    }
    all
}
