//! The check of the promise is tried by itself: sheets and verdicts that break it are found.

use super::histories;
use crate::session::Session;
use crate::side::{REFERENCE, Side};
use reference::dispatcher::{Dispatcher, Released, sheet};
use reference::plan::{Plan, Refusal};
use reference::verdict::{Verdict, task_verdict};

/// Whether the promise holds in some hundred histories of a side.
fn holds(side: Side) -> bool {
    let mut session = Session::new(side, 1);
    for _ in 0..200 {
        histories(&mut session);
    }
    session.held("promise: histories")
}

#[test]
fn the_reference_keeps_the_promise() {
    assert!(holds(REFERENCE));
}

#[test]
fn a_pair_that_is_answered_as_taken_and_lost() {
    assert!(!holds(Side {
        sheet: |state, pairs, answers| match pairs.len() {
            0 | 1 => sheet(state, pairs, answers),
            count => Released {
                dispatcher: sheet(state, &pairs[..count - 1], &mut answers.to_vec()).dispatcher,
                ..sheet(state, pairs, answers)
            },
        },
        ..REFERENCE
    }));
}

#[test]
fn a_due_pair_that_is_turned_away() {
    assert!(!holds(Side {
        sheet: |state, pairs, answers| {
            let count = pairs.len().min(1);
            let outcome = sheet(state, &pairs[..count], answers);
            if answers.len() >= pairs.len() {
                answers[count..pairs.len()].fill(9);
            }
            outcome
        },
        ..REFERENCE
    }));
}

#[test]
fn a_sheet_that_is_refused_whole_for_one_of_its_pairs() {
    assert!(!holds(Side {
        sheet: |state, pairs, answers| {
            let outcome = sheet(state, pairs, answers);
            match answers
                .iter()
                .take(pairs.len())
                .find(|answer| **answer == 7)
            {
                Some(_) if outcome.refusal.number == 0 => Released {
                    refusal: Refusal::new(7, 0),
                    dispatcher: *state,
                },
                _ => outcome,
            }
        },
        ..REFERENCE
    }));
}

#[test]
fn a_refused_sheet_that_releases_its_first_pair() {
    assert!(!holds(Side {
        sheet: |state, pairs, answers| {
            let outcome = sheet(state, pairs, answers);
            match outcome.refusal.number {
                12 => Released {
                    dispatcher: sheet(state, &pairs[..1], &mut [0]).dispatcher,
                    ..outcome
                },
                _ => outcome,
            }
        },
        ..REFERENCE
    }));
}

/// The verdict of a task, with its guest's gap taken out of the response of one that is unbound.
fn without_the_gap(plan: &Plan, id: u32, task: u32) -> Verdict {
    let right = task_verdict(plan, id, task);
    let own = plan.listed().iter().find(|guest| guest.id == id);
    match own {
        Some(own) if right.ticks > 0 && !own.is_bound(task as usize - 1) => Verdict {
            ticks: right.ticks - (own.period - own.capacity),
            ..right
        },
        _ => right,
    }
}

#[test]
fn an_unbound_task_quoted_as_a_bound_one() {
    assert!(!holds(Side {
        task_verdict: without_the_gap,
        ..REFERENCE
    }));
}

/// The state with no task bound.
fn unbound(state: &Dispatcher) -> Dispatcher {
    let mut state = *state;
    for guest in &mut state.plan.guests {
        guest.marks = 0;
    }
    state
}

#[test]
fn a_pair_of_a_bound_task_taken_at_any_position() {
    assert!(!holds(Side {
        sheet: |state, pairs, answers| {
            let mut outcome = sheet(&unbound(state), pairs, answers);
            outcome.dispatcher.plan = state.plan;
            outcome
        },
        ..REFERENCE
    }));
}
