//! Wrong sheets of releases where tasks are bound.

use super::{passes, unmarked_state, with_records_of};
use compare::side::{REFERENCE, Side};
use reference::dispatcher::{Dispatcher, Released, sheet};
use reference::plan::Refusal;

/// Whether nothing wrong is found with a sheet, all else being right.
fn sheet_passes(wrong: fn(&Dispatcher, &[u64], &mut [u32]) -> Released) -> bool {
    passes(Side {
        sheet: wrong,
        ..REFERENCE
    })
}

/// The answers to a sheet, unless it is refused whole.
fn answers_of(state: &Dispatcher, pairs: &[u64], answers: &[u32]) -> Option<Vec<u32>> {
    let mut tried = answers.to_vec();
    let outcome = sheet(state, pairs, &mut tried);
    tried.truncate(pairs.len());
    (outcome.refusal.number == 0).then_some(tried)
}

#[test]
fn pairs_of_bound_tasks_taken_at_any_position() {
    assert!(!sheet_passes(|state, pairs, answers| {
        match answers_of(state, pairs, answers) {
            Some(_) => with_records_of(state, sheet(&unmarked_state(state), pairs, answers)),
            None => sheet(state, pairs, answers),
        }
    }));
}

#[test]
fn a_pairs_position_looked_at_after_its_wait() {
    assert!(!sheet_passes(|state, pairs, answers| {
        let unbound = answers_of(&unmarked_state(state), pairs, answers);
        let outcome = sheet(state, pairs, answers);
        if let (0, Some(unbound)) = (outcome.refusal.number, unbound) {
            for (answer, other) in answers.iter_mut().zip(unbound) {
                *answer = if other == 9 { 9 } else { *answer };
            }
        }
        outcome
    }));
}

#[test]
fn a_sheet_refused_whole_for_a_pair_away_from_position_0() {
    assert!(!sheet_passes(|state, pairs, answers| {
        match answers_of(state, pairs, answers) {
            Some(all) if all.contains(&17) => Released {
                refusal: Refusal::new(17, 0),
                dispatcher: *state,
            },
            _ => sheet(state, pairs, answers),
        }
    }));
}
