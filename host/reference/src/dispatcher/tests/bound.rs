//! Releases of bound tasks: P8 of document 02.

use super::*;
use crate::samples::plan_a_bound;

/// The number that a release of guest 9's task is refused by, 0 for taken.
fn answer(state: &Dispatcher, task: u32) -> u32 {
    let outcome = release(state, 9, task);
    if outcome.refusal.number != 0 {
        assert_eq!(outcome.refusal.place, 0);
        assert_eq!(outcome.dispatcher, *state);
    }
    outcome.refusal.number
}

#[test]
fn a_bound_task_is_released_at_position_0_only() {
    let start = started(&plan_a_bound(1));
    for ticks in 0..=60 {
        let state = after(&start, ticks);
        let expected = if ticks % 20 == 0 { 0 } else { 17 };
        assert_eq!([answer(&state, 1), answer(&state, 2)], [expected, 0]);
    }
}

#[test]
fn refusal_17_comes_before_9_and_10_and_after_8() {
    let state = taken(&started(&plan_a_bound(1)), 9, 1);
    assert_eq!(answer(&state, 1), 9);
    assert_eq!(answer(&after(&state, 1), 1), 17);
    assert_eq!(answer(&after(&state, 1), 3), 8);
    assert_eq!(answer(&after(&state, 20), 1), 9);
    assert_eq!(answer(&after(&state, 59), 1), 17);
    assert_eq!(answer(&after(&state, 60), 1), 0);
    let mut unfinished = after(&state, 60);
    unfinished.rest[place_of(1, 0)] = 1;
    assert_eq!(answer(&unfinished, 1), 10);
    unfinished.position[1] = 19;
    assert_eq!(answer(&unfinished, 1), 17);
}

#[test]
fn a_bound_job_takes_its_response_at_most() {
    let state = taken(&started(&plan_a_bound(1)), 9, 1);
    assert_eq!(run(&state, 1000).answer, finished(9, 1, 24, 36));
    let both = taken(&taken(&started(&plan_a_bound(3)), 9, 2), 9, 1);
    let first = run(&both, 1000);
    assert_eq!(first.answer, finished(9, 1, 24, 36));
    let second = run(&first.dispatcher, 1000);
    assert_eq!(second.answer, finished(9, 2, 44, 56));
}

#[test]
fn pairs_of_a_sheet_are_answered_by_17() {
    let pairs = [pair(9, 1), pair(9, 2), pair(9, 1), pair(9, 3)];
    let answered = |state: &Dispatcher| {
        let mut answers = [0; 4];
        assert_eq!(sheet(state, &pairs, &mut answers).refusal, Refusal::NONE);
        answers
    };
    let start = started(&plan_a_bound(1));
    assert_eq!(answered(&start), [0, 0, 9, 8]);
    assert_eq!(answered(&after(&start, 7)), [17, 0, 17, 8]);
}

#[test]
fn the_multiple_is_asked_of_a_state() {
    let mut state = started(&plan_a_bound(1));
    state.plan.guests[1].period = 19;
    assert_eq!(tick(&state).refusal, Refusal::new(14, 0));
    state.plan.guests[1].marks = 0xFFFC;
    assert_eq!(tick(&state).refusal, Refusal::NONE);
}
