//! Wrong dispatchers in which one guest feels another, each of which the pairs of histories alone must find.

use crate::{passes, without_idle_capacity};
use compare::independence::{HISTORIES, histories};
use compare::session::Session;
use compare::side::{REFERENCE, Side};
use reference::dispatcher::{Dispatcher, FINISHED, IDLED, PLACES, RAN, Released, Ticked};
use reference::dispatcher::{place_of, release, sheet, tick};
use reference::plan::{MOST_GUESTS, MOST_TASKS};
use std::ops::Range;

/// Whether no guest feels another in some hundred pairs of histories of a side.
fn is_independent(side: Side) -> bool {
    let mut session = Session::new(side, 1);
    for _ in 0..300 {
        histories(&mut session);
    }
    session.held(HISTORIES)
}

/// Whether no guest feels another with this tick, all else being right.
fn tick_is_independent(wrong: fn(&Dispatcher) -> Ticked) -> bool {
    is_independent(Side {
        tick: wrong,
        ..REFERENCE
    })
}

/// The place of the guest that had the tick; a tick that was refused, whose plan may be any, has none.
fn served(ticked: &Ticked) -> Option<usize> {
    match ticked.refusal.number {
        0 => ticked.dispatcher.plan.place_of(ticked.answer.guest).ok(),
        _ => None,
    }
}

/// Whether the dispatcher keeps a task of this guest at the place.
fn is_of(place: usize, guest: Option<usize>) -> bool {
    guest == Some(place / MOST_TASKS)
}

#[test]
fn the_reference_keeps_guests_apart() {
    assert!(is_independent(REFERENCE));
}

#[test]
fn an_idle_guest_above_that_gives_its_tick_away() {
    assert!(!tick_is_independent(|state| tick(&without_idle_capacity(
        state
    ))));
}

/// The first place of a job of some of the guests.
fn first_job(state: &Dispatcher, mut guests: Range<usize>) -> Option<usize> {
    let job = |guest: usize| {
        let mut places = (0..MOST_TASKS).map(|task| place_of(guest, task));
        places.find(|place| state.rest[*place] > 0)
    };
    guests.find_map(job)
}

#[test]
fn a_job_above_that_draws_on_the_capacity_of_the_guest() {
    assert!(!tick_is_independent(|state| {
        let right = tick(state);
        let guest = served(&right).unwrap_or(0);
        let Some(job) = first_job(state, 0..guest) else {
            return right;
        };
        let mut lent = *state;
        lent.left[job / MOST_TASKS] = 1;
        let mut wrong = tick(&lent);
        wrong.dispatcher.left[guest] -= 1;
        wrong
    }));
}

#[test]
fn a_job_below_that_draws_on_the_capacity_of_an_idle_guest() {
    assert!(!tick_is_independent(|state| {
        let mut ticked = tick(state);
        let next = &mut ticked.dispatcher;
        let guest = next.plan.place_of(ticked.answer.guest).unwrap_or(0);
        let job = first_job(next, guest + 1..MOST_GUESTS);
        if let (IDLED, Some(job)) = (ticked.answer.kind, job) {
            next.rest[job] -= 1;
            ticked.answer.kind = RAN;
            ticked.answer.guest = next.plan.guests[job / MOST_TASKS].id;
        }
        ticked
    }));
}

#[test]
fn ages_that_count_the_finishes_of_others() {
    assert!(!tick_is_independent(|state| {
        let mut ticked = tick(state);
        let guest = served(&ticked);
        let next = &mut ticked.dispatcher;
        for at in (0..PLACES).filter(|at| !is_of(*at, guest)) {
            let grows = ticked.answer.kind == FINISHED && next.rest[at] > 0;
            next.age[at] = (next.age[at] + u32::from(grows)).min(1_000_000);
        }
        ticked
    }));
}

#[test]
fn a_wait_that_falls_only_while_some_job_is_worked() {
    assert!(!tick_is_independent(|state| {
        let mut ticked = tick(state);
        if ticked.answer.kind < RAN {
            ticked.dispatcher.wait = state.wait;
        }
        ticked
    }));
}

/// The guest's ticks do not depend on others, so this mistake keeps guests apart; the reference shows it.
#[test]
fn a_wait_that_falls_only_when_its_guest_has_the_tick() {
    let wrong = Side {
        tick: |state| {
            let mut ticked = tick(state);
            let guest = served(&ticked);
            for at in (0..PLACES).filter(|at| !is_of(*at, guest)) {
                ticked.dispatcher.wait[at] = state.wait[at];
            }
            ticked
        },
        ..REFERENCE
    };
    assert!(is_independent(wrong));
    assert!(!passes(wrong));
}

#[test]
fn a_bound_task_released_by_the_position_of_the_last_guest() {
    assert!(!is_independent(Side {
        release: |state, id, task| {
            let last = state.plan.listed().len() - 1;
            let starts = state.position[last] == 0;
            let mut moved = *state;
            for (guest, position) in moved.position.iter_mut().enumerate() {
                let within = state.plan.guests[guest].period > 1;
                *position = u32::from(guest <= last && !starts && within);
            }
            let outcome = release(&moved, id, task);
            let dispatcher = Dispatcher {
                position: state.position,
                ..outcome.dispatcher
            };
            Released {
                dispatcher,
                ..outcome
            }
        },
        ..REFERENCE
    }));
}

#[test]
fn a_refused_release_that_shortens_the_waits_of_others() {
    assert!(!is_independent(Side {
        release: |state, id, task| {
            let mut outcome = release(state, id, task);
            let guest = state.plan.place_of(id).ok();
            if outcome.refusal.number > 0 {
                for at in (0..PLACES).filter(|at| !is_of(*at, guest)) {
                    let wait = &mut outcome.dispatcher.wait[at];
                    *wait = wait.saturating_sub(1);
                }
            }
            outcome
        },
        ..REFERENCE
    }));
}

#[test]
fn a_refused_sheet_that_releases_its_first_pair() {
    assert!(!is_independent(Side {
        sheet: |state, pairs, answers| {
            let outcome = sheet(state, pairs, answers);
            match outcome.refusal.number {
                0 => outcome,
                _ => Released {
                    dispatcher: sheet(state, &pairs[..1], &mut [0]).dispatcher,
                    ..outcome
                },
            }
        },
        ..REFERENCE
    }));
}
