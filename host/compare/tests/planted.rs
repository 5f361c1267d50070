//! The comparison itself is tried: each wrong implementation that document 01 names must be found, two of
//! its errors that look reasonable, and some of P1's, P2's, P5's to P13's and the least capacities'.

#[path = "planted/amendments.rs"]
mod amendments;
#[path = "planted/choice.rs"]
mod choice;
#[path = "planted/convert.rs"]
mod convert;
#[path = "planted/deferrable.rs"]
mod deferrable;
#[path = "planted/independence.rs"]
mod independence;
#[path = "planted/marks.rs"]
mod marks;
#[path = "planted/order.rs"]
mod order;
#[path = "planted/salvage.rs"]
mod salvage;
#[path = "planted/sheets.rs"]
mod sheets;
#[path = "planted/statements.rs"]
mod statements;

use compare::session::Session;
use compare::side::{REFERENCE, Side};
use reference::dispatcher::{
    COUNTED, Dispatcher, IDLED, IDLED_FROM, Run, Ticked, release, run, tick,
};
use reference::plan::{Plan, Refusal};
use reference::verdict::{self, NO, Verdict, YES};
use std::time::Duration;

/// Whether the comparison finds nothing wrong with a side.
fn passes(side: Side) -> bool {
    let mut session = Session::new(side, 1);
    session.scans = true;
    compare::everything(&mut session, Duration::from_secs(1));
    session.report()
}

#[test]
fn the_reference_passes() {
    assert!(passes(REFERENCE));
}

#[test]
fn an_analysis_that_finds_everything_unmet() {
    assert!(!passes(Side {
        task_verdict: |plan, id, task| instead_of_met(plan, id, task, NO, 0),
        ..REFERENCE
    }));
}

#[test]
fn an_analysis_that_quotes_one_response_for_all_plans() {
    assert!(!passes(Side {
        task_verdict: |plan, id, task| instead_of_met(plan, id, task, YES, 36),
        ..REFERENCE
    }));
}

#[test]
fn a_search_that_still_stops_at_the_deadline() {
    assert!(!passes(Side {
        task_verdict: |plan, id, task| {
            let right = verdict::task_verdict(plan, id, task);
            let ticks = if right.verdict == YES { right.ticks } else { 0 };
            Verdict { ticks, ..right }
        },
        ..REFERENCE
    }));
}

#[test]
fn an_acceptance_that_takes_unmet_with_a_response_for_met() {
    assert!(!passes(Side {
        accept: |plan| {
            let right = verdict::accept(plan);
            let quoted = right.verdict == NO && all_quoted(plan);
            let verdict = if quoted { YES } else { right.verdict };
            Verdict { verdict, ..right }
        },
        ..REFERENCE
    }));
}

/// Whether every task of the plan is quoted a response.
fn all_quoted(plan: &Plan) -> bool {
    plan.listed().iter().all(|guest| {
        guest
            .places()
            .all(|task| verdict::task_verdict(plan, guest.id, task as u32 + 1).ticks > 0)
    })
}

/// The reference's verdict, but another where that is met.
fn instead_of_met(plan: &Plan, id: u32, task: u32, verdict: u32, ticks: u32) -> Verdict {
    let right = verdict::task_verdict(plan, id, task);
    match right.verdict {
        YES => Verdict {
            verdict,
            ticks,
            ..right
        },
        _ => right,
    }
}

#[test]
fn a_release_that_always_refuses() {
    assert!(!passes(Side {
        release: |state, _, _| reference::dispatcher::Released {
            refusal: Refusal::new(9, 0),
            dispatcher: *state,
        },
        ..REFERENCE
    }));
}

#[test]
fn a_tick_that_hands_the_state_back_untouched() {
    assert!(!passes(Side {
        tick: |state| Ticked {
            dispatcher: *state,
            ..tick(state)
        },
        ..REFERENCE
    }));
}

#[test]
fn a_run_that_works_its_first_tick_and_pretends_the_others() {
    assert!(!passes(Side {
        run: |state, ticks| Run {
            done: run(state, ticks).done,
            ..run(state, ticks.min(1))
        },
        ..REFERENCE
    }));
}

#[test]
fn a_run_that_invents_its_number_of_ticks_done() {
    assert!(!passes(Side {
        run: |state, ticks| Run {
            done: ticks,
            ..run(state, ticks)
        },
        ..REFERENCE
    }));
}

#[test]
fn a_larger_capacity_taken_as_always_better() {
    assert!(!passes(Side {
        smallest_capacity: |plan, id| {
            let right = verdict::smallest_capacity(plan, id);
            let Some(guest) = plan.guests.iter().position(|guest| guest.id == id) else {
                return right;
            };
            match right.number == 0 && !verdict::works(plan, guest, plan.guests[guest].period) {
                true => Verdict {
                    number: 11,
                    ..Verdict::default()
                },
                false => right,
            }
        },
        ..REFERENCE
    }));
}

#[test]
fn an_idle_guests_tick_given_to_the_guest_below() {
    assert!(!passes(Side {
        tick: |state| tick(&without_idle_capacity(state)),
        ..REFERENCE
    }));
}

/// The state with the capacity of guests that have no job taken away, inside their periods.
fn without_idle_capacity(state: &Dispatcher) -> Dispatcher {
    let mut changed = *state;
    for (guest, left) in changed.left.iter_mut().enumerate() {
        if state.rest[16 * guest..16 * (guest + 1)] == [0; 16] {
            *left = 0;
        }
    }
    changed
}

#[test]
fn a_tick_that_counts_what_is_idled_away_as_nobodys() {
    assert!(!passes(Side {
        tick: |state| {
            let mut ticked = tick(state);
            if ticked.answer.kind == IDLED {
                let usage = &mut ticked.dispatcher.usage;
                usage[IDLED_FROM..].copy_from_slice(&state.usage[IDLED_FROM..]);
                usage[COUNTED - 1] = usage[COUNTED - 1].wrapping_add(1);
            }
            ticked
        },
        ..REFERENCE
    }));
}

#[test]
fn a_count_that_stops_instead_of_wrapping() {
    assert!(!passes(Side {
        tick: |state| {
            let mut ticked = tick(state);
            for (number, before) in ticked.dispatcher.usage.iter_mut().zip(state.usage) {
                *number = before.max(*number);
            }
            ticked
        },
        ..REFERENCE
    }));
}

#[test]
fn a_refused_run_that_starts_the_count_anew() {
    assert!(!passes(Side {
        run: |state, ticks| {
            let mut outcome = run(state, ticks);
            if outcome.refusal.number != 0 {
                outcome.dispatcher.usage = [0; COUNTED];
            }
            outcome
        },
        ..REFERENCE
    }));
}

#[test]
fn a_release_that_looks_at_where_the_ticks_went() {
    assert!(!passes(Side {
        release: |state, id, task| match state.usage[COUNTED - 1] {
            u64::MAX => reference::dispatcher::Released {
                refusal: Refusal::new(14, 0),
                dispatcher: *state,
            },
            _ => release(state, id, task),
        },
        ..REFERENCE
    }));
}
