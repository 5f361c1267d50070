//! Wrong releases of bound tasks.

use super::{passes, unmarked_state, with_records_of};
use compare::side::{REFERENCE, Side};
use reference::dispatcher::{Dispatcher, Released, place_of, release};
use reference::plan::Refusal;

/// Whether nothing wrong is found with a release, all else being right.
fn release_passes(wrong: fn(&Dispatcher, u32, u32) -> Released) -> bool {
    passes(Side {
        release: wrong,
        ..REFERENCE
    })
}

/// A refusal that leaves the state.
fn refused(state: &Dispatcher, number: u32) -> Released {
    Released {
        refusal: Refusal::new(number, 0),
        dispatcher: *state,
    }
}

/// The release of a task as if it were not bound.
fn as_unbound(state: &Dispatcher, id: u32, task: u32) -> Released {
    with_records_of(state, release(&unmarked_state(state), id, task))
}

#[test]
fn a_bound_task_taken_at_any_position() {
    assert!(!release_passes(|state, id, task| {
        match release(state, id, task).refusal.number {
            17 => as_unbound(state, id, task),
            _ => release(state, id, task),
        }
    }));
}

#[test]
fn the_position_looked_at_after_the_wait() {
    assert!(!release_passes(|state, id, task| {
        let right = release(state, id, task);
        let unbound = as_unbound(state, id, task);
        match (right.refusal.number, unbound.refusal.number) {
            (17, 9) => unbound,
            _ => right,
        }
    }));
}

#[test]
fn the_position_looked_at_after_the_unfinished_job() {
    assert!(!release_passes(|state, id, task| {
        let right = release(state, id, task);
        let unbound = as_unbound(state, id, task);
        match (right.refusal.number, unbound.refusal.number) {
            (17, 10) => unbound,
            _ => right,
        }
    }));
}

#[test]
fn the_position_looked_at_before_the_task_is_looked_for() {
    assert!(!release_passes(|state, id, task| {
        let right = release(state, id, task);
        if right.refusal.number != 8 || !(1..=16).contains(&task) {
            return right;
        }
        let guest = state.plan.place_of(id).expect("a guest");
        let marked = state.plan.guests[guest].marks >> (task - 1) & 1 == 1;
        match marked && state.position[guest] > 0 {
            true => refused(state, 17),
            false => right,
        }
    }));
}

#[test]
fn unbound_tasks_held_to_the_position_too() {
    assert!(!release_passes(|state, id, task| {
        let right = release(state, id, task);
        if right.refusal.number != 0 {
            return right;
        }
        let guest = state.plan.place_of(id).expect("a guest");
        match state.plan.guests[guest].marks != 0 && state.position[guest] > 0 {
            true => refused(state, 17),
            false => right,
        }
    }));
}

#[test]
fn the_position_of_the_guest_below_looked_at() {
    assert!(!release_passes(|state, id, task| {
        let mut moved = *state;
        moved.position[0] = state.position[1] % state.plan.guests[0].period.max(1);
        let mut outcome = release(&moved, id, task);
        outcome.dispatcher.position = state.position;
        match release(state, id, task).refusal.number {
            14 => refused(state, 14),
            _ => outcome,
        }
    }));
}

#[test]
fn a_release_refused_by_its_position_that_sets_the_wait() {
    assert!(!release_passes(|state, id, task| {
        let mut right = release(state, id, task);
        if right.refusal.number == 17 {
            let guest = state.plan.place_of(id).expect("a guest");
            let place = place_of(guest, task as usize - 1);
            right.dispatcher.wait[place] = state.plan.guests[guest].every[task as usize - 1];
        }
        right
    }));
}
