//! Wrong sheets of releases, each of which the comparison must find.

use crate::passes;
use compare::side::{REFERENCE, Side};
use reference::dispatcher::{Dispatcher, LONGEST_SHEET, Released, parts, release, sheet};
use reference::plan::Refusal;

/// Whether the comparison finds nothing wrong with a sheet, all else being right.
fn sheet_passes(wrong: fn(&Dispatcher, &[u64], &mut [u32]) -> Released) -> bool {
    passes(Side {
        sheet: wrong,
        ..REFERENCE
    })
}

/// Whether a sheet is not refused whole.
fn is_taken(state: &Dispatcher, pairs: &[u64], answers: &[u32]) -> bool {
    let mut aside = answers.to_vec();
    sheet(state, pairs, &mut aside).refusal.number == 0
}

#[test]
fn a_later_pair_judged_by_the_state_before_the_sheet() {
    assert!(!sheet_passes(|state, pairs, answers| {
        let outcome = sheet(state, pairs, answers);
        if outcome.refusal.number == 0 {
            for (pair, answer) in pairs.iter().zip(answers) {
                let (guest, task) = parts(*pair);
                if let Ok(id) = u32::try_from(guest) {
                    *answer = release(state, id, task).refusal.number;
                }
            }
        }
        outcome
    }));
}

#[test]
fn an_answer_past_the_pairs_written() {
    assert!(!sheet_passes(|state, pairs, answers| {
        let outcome = sheet(state, pairs, answers);
        if let (0, Some(past)) = (outcome.refusal.number, answers.get_mut(pairs.len())) {
            *past = 0;
        }
        outcome
    }));
}

#[test]
fn an_answer_written_on_a_whole_refusal() {
    assert!(!sheet_passes(|state, pairs, answers| {
        let outcome = sheet(state, pairs, answers);
        if let (1.., Some(first)) = (outcome.refusal.number, answers.first_mut()) {
            *first = outcome.refusal.number;
        }
        outcome
    }));
}

#[test]
fn a_state_changed_on_a_whole_refusal() {
    assert!(!sheet_passes(|state, pairs, answers| {
        let outcome = sheet(state, pairs, answers);
        let fitting = pairs.len().min(answers.len());
        match outcome.refusal.number {
            12 => Released {
                dispatcher: sheet(state, &pairs[..fitting], &mut answers.to_vec()).dispatcher,
                ..outcome
            },
            _ => outcome,
        }
    }));
}

#[test]
fn pairs_taken_in_reverse() {
    assert!(!sheet_passes(|state, pairs, answers| {
        let reversed: Vec<u64> = pairs.iter().rev().copied().collect();
        let outcome = sheet(state, &reversed, answers);
        if outcome.refusal.number == 0 {
            answers[..pairs.len()].reverse();
        }
        outcome
    }));
}

#[test]
fn too_few_answer_places_looked_at_before_too_many_pairs() {
    assert!(!sheet_passes(|state, pairs, answers| {
        let mut outcome = sheet(state, pairs, answers);
        if outcome.refusal.number == 15 && answers.len() < pairs.len() {
            outcome.refusal.number = 12;
        }
        outcome
    }));
}

#[test]
fn too_many_pairs_looked_at_before_the_state() {
    assert!(!sheet_passes(|state, pairs, answers| {
        let mut outcome = sheet(state, pairs, answers);
        if outcome.refusal.number == 14 && pairs.len() > LONGEST_SHEET {
            outcome.refusal.number = 15;
        }
        outcome
    }));
}

#[test]
fn a_sheet_of_257_pairs_taken() {
    assert!(!sheet_passes(|state, pairs, answers| {
        let most = pairs.len().min(answers.len());
        if pairs.len() != LONGEST_SHEET + 1 || most < pairs.len() {
            return sheet(state, pairs, answers);
        }
        let first = sheet(state, &pairs[..LONGEST_SHEET], answers);
        match first.refusal.number {
            0 => sheet(
                &first.dispatcher,
                &pairs[LONGEST_SHEET..],
                &mut answers[LONGEST_SHEET..],
            ),
            _ => first,
        }
    }));
}

#[test]
fn the_last_pair_left_out() {
    assert!(!sheet_passes(|state, pairs, answers| {
        match is_taken(state, pairs, answers) {
            true => sheet(state, &pairs[..pairs.len().saturating_sub(1)], answers),
            false => sheet(state, pairs, answers),
        }
    }));
}

#[test]
fn a_guest_part_cut_to_32_bits() {
    assert!(!sheet_passes(|state, pairs, answers| {
        let cut: Vec<u64> = pairs.iter().map(|pair| pair % (1 << 48)).collect();
        sheet(state, &cut, answers)
    }));
}

#[test]
fn a_sheet_that_stops_at_its_first_refused_pair() {
    assert!(!sheet_passes(|state, pairs, answers| {
        let mut tried = answers.to_vec();
        let outcome = sheet(state, pairs, &mut tried);
        match tried
            .iter()
            .take(pairs.len())
            .position(|answer| *answer > 0)
        {
            Some(at) if outcome.refusal.number == 0 => sheet(state, &pairs[..=at], answers),
            _ => sheet(state, pairs, answers),
        }
    }));
}

#[test]
fn a_sheet_refused_whole_for_one_of_its_pairs() {
    assert!(!sheet_passes(|state, pairs, answers| {
        let mut tried = answers.to_vec();
        let outcome = sheet(state, pairs, &mut tried);
        match tried.iter().take(pairs.len()).find(|answer| **answer > 0) {
            Some(number) if outcome.refusal.number == 0 => Released {
                refusal: Refusal::new(*number, 0),
                dispatcher: *state,
            },
            _ => sheet(state, pairs, answers),
        }
    }));
}
