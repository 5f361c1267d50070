//! Wrong orders for guests' tasks, each of which the comparison of orders alone must find.

#[path = "order/kept.rs"]
mod kept;
#[path = "order/refusals.rs"]
mod refusals;
#[path = "order/sorting.rs"]
mod sorting;
#[path = "order/verdicts.rs"]
mod verdicts;

use compare::order;
use compare::session::Session;
use compare::side::{REFERENCE, Side};
use reference::order::{Ordered, by_deadline, order as ordered, reordered};
use reference::plan::{Guest, Plan, Refusal};
use reference::verdict::{YES, task_verdict};

/// What small and some random plans show of a side.
fn compared(side: Side) -> Session {
    let mut session = Session::new(side, 1);
    session.scans = true;
    order::compare(&mut session);
    for _ in 0..10 {
        order::round(&mut session);
    }
    session
}

/// Whether nothing wrong is found with an order, all else being right.
fn passes(wrong: fn(&Plan, u32) -> Ordered) -> bool {
    let side = Side {
        order: wrong,
        ..REFERENCE
    };
    compared(side).found_nothing()
}

/// A refusal, with the plan as handed in.
fn refused(plan: &Plan, number: u32) -> Ordered {
    Ordered {
        refusal: Refusal::new(number, 0),
        plan: *plan,
    }
}

/// The place of a guest in a plan that has it.
fn place_of(plan: &Plan, id: u32) -> usize {
    plan.place_of(id).expect("a guest")
}

/// The plan with one guest's tasks by deadline.
fn sorted(plan: &Plan, guest: usize) -> Plan {
    reordered(plan, guest, &by_deadline(&plan.guests[guest]))
}

/// The right outcome; where that is no refusal, the plan is changed, the guest's place being told.
fn with(plan: &Plan, id: u32, change: impl Fn(&mut Plan, usize)) -> Ordered {
    let mut outcome = ordered(plan, id);
    if outcome.refusal == Refusal::NONE {
        change(&mut outcome.plan, place_of(plan, id));
    }
    outcome
}

/// The right refusals, and the plan changed where it is refused by one of these numbers.
fn with_refused(plan: &Plan, id: u32, numbers: &[u32], change: impl Fn(&mut Plan)) -> Ordered {
    let mut outcome = ordered(plan, id);
    if numbers.contains(&outcome.refusal.number) {
        change(&mut outcome.plan);
    }
    outcome
}

/// The outcome where something else decides whether an order works: it is told the plan as it is sorted, and the place.
fn decided(plan: &Plan, id: u32, works: impl Fn(&Plan, usize) -> bool) -> Ordered {
    let right = ordered(plan, id);
    if ![0, 22].contains(&right.refusal.number) {
        return right;
    }
    let guest = place_of(plan, id);
    let sorted = sorted(plan, guest);
    match works(&sorted, guest) {
        true => Ordered {
            refusal: Refusal::NONE,
            plan: sorted,
        },
        false => refused(plan, 22),
    }
}

/// The outcome where something else decides whether it is 21; a guest that is taken all the same is taken as Periodic
/// with no task bound.
fn barred(plan: &Plan, id: u32, is_21: impl Fn(&Plan, usize) -> bool) -> Ordered {
    let right = ordered(plan, id);
    if ![0, 21, 22].contains(&right.refusal.number) {
        return right;
    }
    let guest = place_of(plan, id);
    if is_21(plan, guest) {
        return refused(plan, 21);
    }
    let Guest {
        marks, deferrable, ..
    } = plan.guests[guest];
    let mut taken = *plan;
    (taken.guests[guest].marks, taken.guests[guest].deferrable) = (0, 0);
    let mut outcome = ordered(&taken, id);
    let own = &mut outcome.plan.guests[guest];
    (own.marks, own.deferrable) = (marks, deferrable);
    outcome
}

/// Whether every task of a guest is met.
fn all_met(plan: &Plan, guest: usize) -> bool {
    let own = &plan.guests[guest];
    (1..=own.tasks).all(|task| task_verdict(plan, own.id, task).verdict == YES)
}

#[test]
fn the_reference_is_right_about_orders() {
    let session = compared(REFERENCE);
    assert!(session.found_nothing());
    for name in [order::BY_DEADLINE, order::AGAIN, order::NO_ORDER] {
        assert!(session.held(name));
    }
}

#[test]
fn what_is_put_together_rightly_is_right() {
    assert!(passes(|plan, id| with(plan, id, |_, _| ())));
    assert!(passes(|plan, id| with_refused(plan, id, &[], |_| ())));
    assert!(passes(|plan, id| decided(plan, id, all_met)));
    assert!(passes(|plan, id| barred(plan, id, |plan, guest| {
        let own = &plan.guests[guest];
        own.is_deferrable() || own.marks_of_tasks() != 0
    })));
}
