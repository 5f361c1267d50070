//! Wrong verdicts and capacities of guests with bound tasks.

use super::{passes, unmarked};
use compare::side::{REFERENCE, Side};
use reference::plan::Plan;
use reference::verdict::{self, NO, UNJUDGED, Verdict, YES, task_response, task_verdict};

/// The verdict of a task as if its guest had other marks, which depend on its own and the task's place.
fn with_marks(plan: &Plan, id: u32, task: u32, marks: fn(u16, usize) -> u16) -> Verdict {
    let right = task_verdict(plan, id, task);
    if right.number != 0 || right.verdict == UNJUDGED {
        return right;
    }
    let mut changed = *plan;
    let guest = plan.place_of(id).expect("a guest");
    let task = task as usize - 1;
    let own = &mut changed.guests[guest];
    own.marks = marks(own.marks, task);
    let deadline = own.deadline[task];
    let (verdict, ticks) = match task_response(&changed, guest, task) {
        Some(response) if response <= deadline => (YES, response),
        Some(response) => (NO, response),
        None => (NO, 0),
    };
    Verdict {
        verdict,
        ticks,
        ..right
    }
}

/// Whether nothing wrong is found with a verdict of a task, all else being right.
fn verdict_passes(wrong: fn(&Plan, u32, u32) -> Verdict) -> bool {
    passes(Side {
        task_verdict: wrong,
        ..REFERENCE
    })
}

/// The marks of the tasks above the one at this place.
fn above(task: usize) -> u16 {
    (1 << task) - 1
}

#[test]
fn a_gap_kept_in_a_bound_tasks_own_response() {
    assert!(!verdict_passes(|plan, id, task| {
        with_marks(plan, id, task, |marks, task| marks & !(1 << task))
    }));
}

#[test]
fn a_gap_kept_where_a_bound_task_loads_those_below() {
    assert!(!verdict_passes(|plan, id, task| {
        with_marks(plan, id, task, |marks, task| marks & !above(task))
    }));
}

#[test]
fn the_gap_of_an_unbound_task_dropped_above_a_bound_one() {
    assert!(!verdict_passes(|plan, id, task| {
        with_marks(plan, id, task, |marks, task| match marks >> task & 1 {
            1 => marks | above(task),
            _ => marks,
        })
    }));
}

#[test]
fn the_gap_of_a_bound_task_kept_above_an_unbound_one() {
    assert!(!verdict_passes(|plan, id, task| {
        with_marks(plan, id, task, |marks, task| match marks >> task & 1 {
            1 => marks,
            _ => marks & !above(task),
        })
    }));
}

#[test]
fn all_tasks_of_a_guest_with_a_mark_taken_as_bound() {
    assert!(!verdict_passes(|plan, id, task| {
        with_marks(
            plan,
            id,
            task,
            |marks, _| {
                if marks == 0 { 0 } else { u16::MAX }
            },
        )
    }));
}

#[test]
fn the_first_mark_taken_for_no_task() {
    assert!(!verdict_passes(|plan, id, task| {
        with_marks(plan, id, task, |marks, _| marks >> 1)
    }));
}

#[test]
fn an_acceptance_that_looks_at_no_mark() {
    assert!(!passes(Side {
        accept: |plan| match verdict::accept(plan) {
            Verdict { number: 0, .. } => verdict::accept(&unmarked(plan)),
            refused => refused,
        },
        ..REFERENCE
    }));
}

#[test]
fn a_search_for_the_capacity_that_looks_at_no_mark() {
    assert!(!passes(Side {
        smallest_capacity: |plan, id| match verdict::smallest_capacity(plan, id) {
            Verdict { number: 0 | 11, .. } => verdict::smallest_capacity(&unmarked(plan), id),
            refused => refused,
        },
        ..REFERENCE
    }));
}
