//! Wrong checks of records and states with marks.

use super::{passes, remarked, unmarked, unmarked_state};
use compare::side::{REFERENCE, Side};
use reference::dispatcher::{Dispatcher, Start, Ticked, fresh, run, tick};
use reference::plan::{Guest, Plan, Refusal, check};
use reference::verdict::{Verdict, accept};

/// Whether nothing wrong is found with a check of records, all else being right.
fn check_passes(wrong: fn(&Plan) -> Refusal) -> bool {
    passes(Side {
        check: wrong,
        ..REFERENCE
    })
}

#[test]
fn the_multiple_not_asked_of_records() {
    assert!(!check_passes(|plan| check(&unmarked(plan))));
}

#[test]
fn the_multiple_asked_of_unbound_tasks_beside_a_bound_one() {
    assert!(!check_passes(|plan| {
        check(&remarked(plan, |marks| match marks {
            0 => 0,
            _ => u16::MAX,
        }))
    }));
}

/// The refusal of records that are well formed and have a guest for which this is so.
fn refused_if(plan: &Plan, is_so: impl Fn(&Guest) -> bool) -> Refusal {
    match check(plan) {
        Refusal::NONE => match plan.listed().iter().position(is_so) {
            Some(place) => Refusal::new(6, place as u32),
            None => Refusal::NONE,
        },
        refused => refused,
    }
}

#[test]
fn the_multiple_asked_past_the_tasks() {
    assert!(!check_passes(|plan| refused_if(plan, |guest| {
        let mut past = (guest.tasks as usize..16).filter(|task| guest.is_bound(*task));
        past.any(|task| !guest.every[task].is_multiple_of(guest.period))
    })));
}

#[test]
fn a_bound_tasks_period_asked_to_be_its_guests() {
    assert!(!check_passes(|plan| refused_if(plan, |guest| {
        let mut bound = guest.places().filter(|task| guest.is_bound(*task));
        bound.any(|task| guest.every[task] != guest.period)
    })));
}

#[test]
fn the_multiple_not_asked_of_a_start() {
    assert!(!passes(Side {
        fresh: |plan| match fresh(plan).refusal.number {
            6 if check(&unmarked(plan)) == Refusal::NONE => Start {
                refusal: Refusal::NONE,
                dispatcher: Dispatcher::with(*plan),
            },
            _ => fresh(plan),
        },
        ..REFERENCE
    }));
}

#[test]
fn a_start_that_clears_marks_past_the_tasks() {
    assert!(!passes(Side {
        fresh: |plan| {
            let mut start = fresh(plan);
            for guest in &mut start.dispatcher.plan.guests {
                guest.marks &= super::all_of(guest.tasks);
            }
            start
        },
        ..REFERENCE
    }));
}

#[test]
fn the_multiple_not_asked_before_a_verdict() {
    assert!(!passes(Side {
        accept: |plan| match accept(plan) {
            Verdict { number: 6, .. } => accept(&unmarked(plan)),
            right => right,
        },
        ..REFERENCE
    }));
}

/// The state that a call leaves, with the records of the one before.
fn keeping(state: &Dispatcher, next: Dispatcher) -> Dispatcher {
    Dispatcher {
        plan: state.plan,
        ..next
    }
}

#[test]
fn the_multiple_not_asked_of_a_state_that_ticks() {
    assert!(!passes(Side {
        tick: |state| {
            let outcome = tick(&unmarked_state(state));
            Ticked {
                dispatcher: keeping(state, outcome.dispatcher),
                ..outcome
            }
        },
        ..REFERENCE
    }));
}

#[test]
fn the_multiple_not_asked_of_a_state_that_runs() {
    assert!(!passes(Side {
        run: |state, ticks| {
            let outcome = run(&unmarked_state(state), ticks);
            reference::dispatcher::Run {
                dispatcher: keeping(state, outcome.dispatcher),
                ..outcome
            }
        },
        ..REFERENCE
    }));
}
