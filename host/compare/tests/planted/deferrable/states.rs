//! States with Deferrable guests that are not refused, or not as 14, and others that are; in each call.

use super::{by_number_1, passes, periodic};
use compare::side::{REFERENCE, Side};
use reference::dispatcher::{
    Dispatcher, LONGEST_RUN, Released, Run, Ticked, release, run, sheet, tick,
};
use reference::plan::{Guest, Plan, Refusal};

/// A wrong look at the kinds of a state's guests: the plan that a call takes for the state's.
trait Look {
    fn taken(plan: &Plan) -> Plan;
}

/// The state as it is looked at.
fn looked_at<L: Look>(state: &Dispatcher) -> Dispatcher {
    Dispatcher {
        plan: L::taken(&state.plan),
        ..*state
    }
}

/// The state with the records of the one before.
fn keeping(state: &Dispatcher, next: Dispatcher) -> Dispatcher {
    Dispatcher {
        plan: state.plan,
        ..next
    }
}

fn released<L: Look>(state: &Dispatcher, id: u32, task: u32) -> Released {
    let outcome = release(&looked_at::<L>(state), id, task);
    Released {
        dispatcher: keeping(state, outcome.dispatcher),
        ..outcome
    }
}

fn sheet_taken<L: Look>(state: &Dispatcher, pairs: &[u64], answers: &mut [u32]) -> Released {
    let outcome = sheet(&looked_at::<L>(state), pairs, answers);
    Released {
        dispatcher: keeping(state, outcome.dispatcher),
        ..outcome
    }
}

fn ticked<L: Look>(state: &Dispatcher) -> Ticked {
    let outcome = tick(&looked_at::<L>(state));
    Ticked {
        dispatcher: keeping(state, outcome.dispatcher),
        ..outcome
    }
}

fn ran<L: Look>(state: &Dispatcher, ticks: u32) -> Run {
    let outcome = run(&looked_at::<L>(state), ticks);
    Run {
        dispatcher: keeping(state, outcome.dispatcher),
        ..outcome
    }
}

fn wrong_release<L: Look>() -> Side {
    Side {
        release: released::<L>,
        ..REFERENCE
    }
}

fn wrong_sheet<L: Look>() -> Side {
    Side {
        sheet: sheet_taken::<L>,
        ..REFERENCE
    }
}

fn wrong_tick<L: Look>() -> Side {
    Side {
        tick: ticked::<L>,
        ..REFERENCE
    }
}

fn wrong_run<L: Look>() -> Side {
    Side {
        run: ran::<L>,
        ..REFERENCE
    }
}

/// Each of the four calls with this look is found by itself.
fn each_is_found<L: Look>() {
    assert!(!passes(wrong_release::<L>()), "release");
    assert!(!passes(wrong_sheet::<L>()), "sheet");
    assert!(!passes(wrong_tick::<L>()), "tick");
    assert!(!passes(wrong_run::<L>()), "run");
}

/// No guest's kind is looked at.
struct AtNone;

impl Look for AtNone {
    fn taken(plan: &Plan) -> Plan {
        periodic(plan)
    }
}

#[test]
fn a_release_of_a_state_with_a_deferrable_guest() {
    assert!(!passes(wrong_release::<AtNone>()));
}

#[test]
fn a_sheet_of_a_state_with_a_deferrable_guest() {
    assert!(!passes(wrong_sheet::<AtNone>()));
}

#[test]
fn a_tick_of_a_state_with_a_deferrable_guest() {
    assert!(!passes(wrong_tick::<AtNone>()));
}

#[test]
fn a_run_of_a_state_with_a_deferrable_guest() {
    assert!(!passes(wrong_run::<AtNone>()));
}

struct AtNumber1;

impl Look for AtNumber1 {
    fn taken(plan: &Plan) -> Plan {
        by_number_1(plan)
    }
}

#[test]
fn the_number_1_taken_alone_as_deferrable() {
    each_is_found::<AtNumber1>();
}

struct AtTheFirst;

impl Look for AtTheFirst {
    fn taken(plan: &Plan) -> Plan {
        let mut records = periodic(plan);
        records.guests[0].deferrable = plan.guests[0].deferrable;
        records
    }
}

#[test]
fn the_first_guest_looked_at_alone() {
    each_is_found::<AtTheFirst>();
}

/// The guests past the count are looked at too.
struct AtAllEight;

impl Look for AtAllEight {
    fn taken(plan: &Plan) -> Plan {
        let mut records = *plan;
        let any = plan.guests.iter().any(Guest::is_deferrable);
        records.guests[0].deferrable = u32::from(any);
        records
    }
}

#[test]
fn guests_past_the_count_looked_at() {
    each_is_found::<AtAllEight>();
}

/// The number that a state is refused by.
const OUT_OF_RANGE: Refusal = Refusal::new(14, 0);

/// Whether a guest that counts is Deferrable.
fn holds_one(plan: &Plan) -> bool {
    plan.count <= 8 && plan.has_deferrable()
}

#[test]
fn a_state_refused_as_a_start_is() {
    assert!(!passes(Side {
        tick: |state| {
            let mut outcome = tick(state);
            if holds_one(&state.plan) {
                outcome.refusal = Refusal::new(23, 0);
            }
            outcome
        },
        ..REFERENCE
    }));
}

#[test]
fn a_guest_made_periodic_by_a_call_that_is_refused() {
    assert!(!passes(Side {
        release: |state, id, task| {
            let mut outcome = release(state, id, task);
            if outcome.refusal == OUT_OF_RANGE {
                outcome.dispatcher.plan = periodic(&state.plan);
            }
            outcome
        },
        ..REFERENCE
    }));
}

#[test]
fn a_run_that_is_too_long_told_first() {
    assert!(!passes(Side {
        run: |state, ticks| {
            let mut outcome = run(state, ticks);
            if holds_one(&state.plan) && ticks > LONGEST_RUN {
                outcome.refusal = Refusal::new(13, 0);
            }
            outcome
        },
        ..REFERENCE
    }));
}

#[test]
fn a_guest_that_is_not_there_told_first() {
    assert!(!passes(Side {
        release: |state, id, task| {
            let mut outcome = release(state, id, task);
            if holds_one(&state.plan) && state.plan.place_of(id).is_err() {
                outcome.refusal = Refusal::new(7, 0);
            }
            outcome
        },
        ..REFERENCE
    }));
}

#[test]
fn answers_given_by_a_sheet_that_is_refused() {
    assert!(!passes(Side {
        sheet: |state, pairs, answers| {
            let outcome = sheet(state, pairs, answers);
            if holds_one(&state.plan) {
                answers.fill(14);
            }
            outcome
        },
        ..REFERENCE
    }));
}
