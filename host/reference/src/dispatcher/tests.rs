mod bound;
mod deferrable;

use super::*;
use crate::plan::Guest;
use crate::samples::{long_gap, plan_a};

fn started(plan: &Plan) -> Dispatcher {
    let start = fresh(plan);
    assert_eq!(start.refusal, Refusal::NONE);
    start.dispatcher
}

fn taken(state: &Dispatcher, id: u32, task: u32) -> Dispatcher {
    let outcome = release(state, id, task);
    assert_eq!(outcome.refusal, Refusal::NONE);
    outcome.dispatcher
}

fn after(state: &Dispatcher, ticks: u32) -> Dispatcher {
    (0..ticks).fold(*state, |state, _| tick(&state).dispatcher)
}

fn finished(guest: u32, task: u32, age: u32, margin: i32) -> Answer {
    Answer {
        kind: FINISHED,
        guest,
        task,
        age,
        margin,
    }
}

#[test]
fn case_7_a_second_release_finds_the_job_unfinished() {
    let state = after(&taken(&started(&long_gap()), 1, 1), 10);
    assert_eq!(release(&state, 1, 1).refusal, Refusal::new(10, 0));
    assert_eq!(release(&state, 1, 1).dispatcher, state);
}

#[test]
fn case_8_released_before_tick_0() {
    let state = taken(&started(&plan_a()), 9, 1);
    let outcome = run(&state, 1000);
    assert_eq!(outcome.answer, finished(9, 1, 24, 26));
    assert_eq!(outcome.done, 24);
}

#[test]
fn case_8_released_before_tick_14() {
    let state = taken(&after(&started(&plan_a()), 14), 9, 1);
    let outcome = run(&state, 1_000_000);
    assert_eq!(outcome.answer, finished(9, 1, 30, 20));
    let early = after(&state, 49);
    assert_eq!(release(&early, 9, 1).refusal, Refusal::new(9, 0));
    taken(&after(&early, 1), 9, 1);
}

#[test]
fn a_finished_jobs_age_stays_until_the_next_taken_release() {
    let state = after(&taken(&started(&plan_a()), 9, 1), 50);
    let place = place_of(1, 0);
    assert_eq!(state.age[place], 24);
    assert_eq!(taken(&state, 9, 1).age[place], 0);
}

#[test]
fn an_idle_guest_keeps_its_tick() {
    let state = taken(&started(&plan_a()), 9, 1);
    let first = tick(&state);
    assert_eq!((first.answer.kind, first.answer.guest), (IDLED, 7));
    let third = tick(&after(&state, 2));
    assert_eq!((third.answer.kind, third.answer.guest), (RAN, 9));
}

#[test]
fn nobody_has_a_tick_when_all_capacity_is_used() {
    let plan = Plan::new(&[Guest::new(1, 1, 3, &[[1, 3, 3]])]);
    let state = after(&started(&plan), 1);
    assert_eq!(tick(&state).answer.kind, NOBODY);
    assert_eq!(tick(&after(&state, 2)).answer.kind, IDLED);
}

#[test]
fn capacity_left_is_dropped_at_position_0() {
    let plan = Plan::new(&[
        Guest::new(1, 1, 1, &[[1, 3, 3]]),
        Guest::new(2, 2, 3, &[[1, 3, 3]]),
    ]);
    let state = after(&started(&plan), 3);
    assert_eq!((state.left[1], state.position[1]), (2, 0));
    assert_eq!(after(&state, 1).left[1], 2);
}

#[test]
fn an_age_stops_and_a_margin_can_be_negative() {
    let plan = Plan::new(&[Guest::new(1, 1, 1, &[[2, 1, 1]])]);
    let mut state = started(&plan);
    state.rest[0] = 1;
    state.age[0] = 1_000_000;
    let outcome = tick(&state);
    assert_eq!(outcome.answer, finished(1, 1, 1_000_000, -999_999));
    assert_eq!(outcome.dispatcher.age[0], 1_000_000);
}

/// The ticks of plan A's two guests, those that they idled away, and nobody's.
fn went(state: &Dispatcher) -> [u64; 5] {
    [0, 1, IDLED_FROM, IDLED_FROM + 1, NOBODYS].map(|at| state.usage[at])
}

#[test]
fn each_tick_is_counted_where_it_went() {
    let state = taken(&started(&plan_a()), 9, 1);
    assert_eq!(went(&state), [0; 5]);
    assert_eq!(went(&after(&state, 2)), [2, 0, 2, 0, 0]);
    assert_eq!(went(&after(&state, 5)), [2, 3, 2, 0, 0]);
    assert_eq!(went(&run(&state, 1000).dispatcher), [10, 10, 10, 0, 4]);
    assert_eq!(went(&after(&state, 40)), [16, 16, 16, 6, 8]);
    let busy = taken(&state, 7, 1);
    assert_eq!(went(&after(&busy, 2)), [2, 0, 1, 0, 0]);
}

#[test]
fn counts_wrap_and_a_refusal_hands_them_back() {
    let mut state = started(&plan_a());
    state.usage = [u64::MAX; COUNTED];
    let most = u64::MAX;
    assert_eq!(went(&after(&state, 1)), [0, most, 0, most, most]);
    assert_eq!(went(&after(&state, 14)), [5, 7, 5, 7, most]);
    assert_eq!(went(&after(&state, 15)), [5, 7, 5, 7, 0]);
    assert_eq!(taken(&state, 9, 1).usage, state.usage);
    assert_eq!(release(&state, 9, 3).dispatcher.usage, state.usage);
    assert_eq!(run(&state, 1_000_001).dispatcher.usage, state.usage);
    state.left[0] = 3;
    assert_eq!(tick(&state).dispatcher.usage, state.usage);
}

#[test]
fn a_run_equals_its_single_ticks() {
    let state = taken(&taken(&started(&plan_a()), 9, 1), 7, 1);
    let outcome = run(&state, 20);
    assert_eq!(outcome.done, 1);
    assert_eq!(outcome.answer, finished(7, 1, 1, 19));
    let rest = run(&outcome.dispatcher, 20);
    assert_eq!(rest.done, 20);
    assert_eq!(rest.dispatcher, after(&state, 21));
}

#[test]
fn a_run_of_nothing_and_refused_runs() {
    let state = started(&plan_a());
    let nothing = Run {
        refusal: Refusal::NONE,
        done: 0,
        answer: Answer::default(),
        dispatcher: state,
    };
    assert_eq!(run(&state, 0), nothing);
    let too_long = Run {
        refusal: Refusal::new(13, 0),
        ..nothing
    };
    assert_eq!(run(&state, 1_000_001), too_long);
    assert_eq!(run(&state, 1_000_000).done, 1_000_000);
    let zero = Dispatcher::with(Plan::default());
    for ticks in [0, 1, u32::MAX] {
        assert_eq!(run(&zero, ticks).refusal, Refusal::new(14, 0));
    }
}

#[test]
fn releases_are_refused_in_their_order() {
    let state = taken(&started(&plan_a()), 9, 1);
    assert_eq!(release(&state, 9, 1).refusal, Refusal::new(9, 0));
    assert_eq!(release(&state, 9, 0).refusal, Refusal::new(8, 0));
    assert_eq!(release(&state, 9, 3).refusal, Refusal::new(8, 0));
    assert_eq!(release(&state, 0, 0).refusal, Refusal::new(7, 0));
    let mut bad = state;
    bad.position[0] = 5;
    assert_eq!(release(&bad, 0, 0).refusal, Refusal::new(14, 0));
    assert_eq!(release(&bad, 0, 0).dispatcher, bad);
}

#[test]
fn a_start_keeps_the_records_as_handed_over() {
    let mut plan = plan_a();
    plan.guests[0].run[9] = 99;
    plan.guests[5].id = 55;
    assert_eq!(fresh(&plan).dispatcher, Dispatcher::with(plan));
    plan.guests[1].id = 7;
    let refused = fresh(&plan);
    assert_eq!(refused.refusal, Refusal::new(4, 1));
    assert_eq!(refused.dispatcher, Dispatcher::with(Plan::default()));
    assert_eq!(tick(&refused.dispatcher).refusal, Refusal::new(14, 0));
}

/// Whether plan A's fresh state with one change is refused as 14.
fn refused_with(change: impl Fn(&mut Dispatcher)) -> bool {
    let mut state = started(&plan_a());
    change(&mut state);
    let outcome = tick(&state);
    let refused = outcome.refusal == Refusal::new(14, 0);
    assert!(!refused || (outcome.dispatcher == state && outcome.answer.kind == NO_ANSWER));
    refused
}

#[test]
fn each_range_of_a_state() {
    let task = place_of(1, 1);
    assert!(!refused_with(|state| state.left[0] = 2));
    assert!(refused_with(|state| state.left[0] = 3));
    assert!(refused_with(|state| state.left[2] = 1));
    assert!(!refused_with(|state| state.position[1] = 19));
    assert!(refused_with(|state| state.position[1] = 20));
    assert!(refused_with(|state| state.position[7] = 1));
    assert!(!refused_with(|state| state.rest[task] = 8));
    assert!(refused_with(|state| state.rest[task] = 9));
    assert!(!refused_with(|state| {
        state.plan.guests[1].charge = 1;
        state.rest[task] = 10;
    }));
    assert!(refused_with(|state| {
        state.plan.guests[1].charge = 1;
        state.rest[task] = 11;
    }));
    assert!(!refused_with(|state| state.wait[task] = 100));
    assert!(refused_with(|state| state.wait[task] = 101));
    assert!(!refused_with(|state| state.age[task] = 1_000_000));
    assert!(refused_with(|state| state.age[task] = 1_000_001));
    for place in [place_of(0, 1), place_of(1, 2), place_of(2, 0), 127] {
        assert!(refused_with(|state| state.rest[place] = 1));
        assert!(refused_with(|state| state.wait[place] = 1));
        assert!(refused_with(|state| state.age[place] = 1));
    }
    assert!(!refused_with(|state| state.usage = [u64::MAX; COUNTED]));
    assert!(refused_with(|state| state.plan.count = 3));
    assert!(refused_with(|state| state.plan.guests[0].tasks = 0));
}
