//! Orders that are taken as working, or not, by wrong verdicts.

use super::{all_met, decided, ordered, passes, place_of, refused};
use reference::order::Ordered;
use reference::plan::{Guest, Plan};
use reference::verdict::{NO, YES, accept, guest_response, task_response, task_verdict};

/// The outcome where each task is taken as met by another test, the guests up to this one being fitted.
fn by_tasks(plan: &Plan, id: u32, met: impl Fn(&Plan, usize, usize) -> bool) -> Ordered {
    decided(plan, id, |sorted, guest| {
        let fitted = (0..=guest).all(|at| guest_response(sorted, at).is_some());
        let mut tasks = sorted.guests[guest].places();
        fitted && tasks.all(|task| met(sorted, guest, task))
    })
}

/// Whether a task of a guest that is judged is met.
fn is_met(plan: &Plan, guest: usize, task: usize) -> bool {
    let response = task_response(plan, guest, task);
    response.is_some_and(|response| response <= plan.guests[guest].deadline[task])
}

/// The plan with its guests changed.
fn changed(plan: &Plan, change: impl Fn(&mut Guest)) -> Plan {
    let mut changed = *plan;
    changed.guests.iter_mut().for_each(change);
    changed
}

#[test]
fn the_right_test_of_tasks_is_right() {
    assert!(passes(|plan, id| by_tasks(plan, id, is_met)));
}

#[test]
fn the_order_as_handed_in_judged() {
    assert!(!passes(|plan, id| {
        let right = ordered(plan, id);
        match right.refusal.number == 0 && !all_met(plan, place_of(plan, id)) {
            true => refused(plan, 22),
            false => right,
        }
    }));
}

#[test]
fn responses_of_the_old_order_held_to_the_new_deadlines() {
    assert!(!passes(|plan, id| by_tasks(
        plan,
        id,
        |sorted, guest, task| {
            let old = task_response(plan, guest, task);
            old.is_some_and(|response| response <= sorted.guests[guest].deadline[task])
        }
    )));
}

#[test]
fn guests_below_judged() {
    assert!(!passes(|plan, id| decided(plan, id, |sorted, _| {
        accept(sorted).verdict == YES
    })));
}

#[test]
fn guests_below_held_to_be_fitted() {
    assert!(!passes(|plan, id| decided(plan, id, |sorted, guest| {
        let mut below = guest..sorted.listed().len();
        all_met(sorted, guest) && below.all(|at| guest_response(sorted, at).is_some())
    })));
}

#[test]
fn tasks_of_guests_above_judged() {
    assert!(!passes(|plan, id| decided(plan, id, |sorted, guest| {
        (0..=guest).all(|at| all_met(sorted, at))
    })));
}

#[test]
fn an_unfit_guest_above_ignored() {
    assert!(!passes(|plan, id| decided(plan, id, |sorted, guest| {
        let mut tasks = sorted.guests[guest].places();
        guest_response(sorted, guest).is_some() && tasks.all(|task| is_met(sorted, guest, task))
    })));
}

#[test]
fn the_guest_itself_not_held_to_be_fitted() {
    assert!(!passes(|plan, id| decided(plan, id, |sorted, guest| {
        let mut tasks = sorted.guests[guest].places();
        let fitted = (0..guest).all(|at| guest_response(sorted, at).is_some());
        fitted && tasks.all(|task| is_met(sorted, guest, task))
    })));
}

#[test]
fn unjudged_taken_for_met() {
    assert!(!passes(|plan, id| decided(plan, id, |sorted, guest| {
        let own = &sorted.guests[guest];
        (1..=own.tasks).all(|task| task_verdict(sorted, own.id, task).verdict != NO)
    })));
}

#[test]
fn unmet_with_a_response_taken_for_met() {
    assert!(!passes(|plan, id| by_tasks(
        plan,
        id,
        |sorted, guest, task| { task_response(sorted, guest, task).is_some() }
    )));
}

#[test]
fn a_response_of_just_the_deadline_taken_for_unmet() {
    assert!(!passes(|plan, id| by_tasks(
        plan,
        id,
        |sorted, guest, task| {
            let response = task_response(sorted, guest, task);
            response.is_some_and(|response| response < sorted.guests[guest].deadline[task])
        }
    )));
}

#[test]
fn the_last_task_alone_judged() {
    assert!(!passes(|plan, id| by_tasks(
        plan,
        id,
        |sorted, guest, task| {
            task + 1 < sorted.guests[guest].tasks as usize || is_met(sorted, guest, task)
        }
    )));
}

#[test]
fn the_last_task_not_judged() {
    assert!(!passes(|plan, id| by_tasks(
        plan,
        id,
        |sorted, guest, task| {
            task + 1 == sorted.guests[guest].tasks as usize || is_met(sorted, guest, task)
        }
    )));
}

#[test]
fn the_first_task_not_judged() {
    assert!(!passes(|plan, id| by_tasks(
        plan,
        id,
        |sorted, guest, task| { task == 0 || is_met(sorted, guest, task) }
    )));
}

#[test]
fn tasks_that_stay_in_their_places_not_judged() {
    assert!(!passes(|plan, id| by_tasks(
        plan,
        id,
        |sorted, guest, task| {
            let entry = |of: &Plan| {
                let own = &of.guests[guest];
                [own.run[task], own.every[task], own.deadline[task]]
            };
            entry(plan) == entry(sorted) || is_met(sorted, guest, task)
        }
    )));
}

#[test]
fn the_charge_left_out() {
    assert!(!passes(|plan, id| decided(plan, id, |sorted, guest| {
        all_met(&changed(sorted, |one| one.charge = 0), guest)
    })));
}

#[test]
fn the_jitter_of_deferrable_guests_above_left_out() {
    assert!(!passes(|plan, id| decided(plan, id, |sorted, guest| {
        all_met(&changed(sorted, |one| one.deferrable = 0), guest)
    })));
}

#[test]
fn jitter_of_periodic_guests_above_too() {
    assert!(!passes(|plan, id| decided(plan, id, |sorted, guest| {
        all_met(&changed(sorted, |one| one.deferrable = 1), guest)
    })));
}

#[test]
fn marks_past_the_tasks_taken_for_bound_ones() {
    assert!(!passes(|plan, id| decided(plan, id, |sorted, guest| {
        let mut bound = *sorted;
        let own = &mut bound.guests[guest];
        let past = own.marks != 0 && own.every[0].is_multiple_of(own.period);
        own.marks |= u16::from(past);
        all_met(&bound, guest)
    })));
}
