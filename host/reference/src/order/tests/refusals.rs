use super::*;
use crate::samples::{plan_a_bound, unfit_above};

/// Asks for a guest and gives the refusal; the plan must come back as it was.
fn refusal(plan: &Plan, id: u32) -> Refusal {
    let outcome = order(plan, id);
    assert_eq!(outcome.plan, *plan);
    outcome.refusal
}

/// A refusal whose place is not told.
fn by(number: u32) -> Refusal {
    Refusal::new(number, 0)
}

#[test]
fn a_deadline_of_35_in_plan_a_has_no_order() {
    for mut plan in [plan_a(), plan_a_exchanged()] {
        let own = &mut plan.guests[1];
        let first = own.run.iter().position(|run| *run == 10);
        own.deadline[first.expect("the task of 10 ticks")] = 35;
        assert_eq!(refusal(&plan, 9), by(22));
    }
}

#[test]
fn an_unfit_guest_and_one_below_it_have_no_order() {
    let plan = unfit_above();
    assert_eq!(proposal(&plan, 1), plan);
    assert_eq!(refusal(&plan, 2), by(22));
    assert_eq!(refusal(&plan, 3), by(22));
}

#[test]
fn deferrable_and_bound_are_21() {
    let mut plan = plan_a_exchanged();
    plan.guests[1].deferrable = u32::MAX;
    assert_eq!(refusal(&plan, 9), by(21));
    for marks in 1..4 {
        assert_eq!(refusal(&plan_a_bound(marks), 9), by(21));
        assert_eq!(proposal(&plan_a_bound(marks), 7), plan_a_bound(marks));
    }
}

#[test]
fn marks_past_the_tasks_do_not_count() {
    let plan = plan_a_bound(0xFFFC);
    assert_eq!(proposal(&plan, 9), plan);
}

#[test]
fn twenty_one_comes_before_twenty_two() {
    let mut plan = unfit_above();
    for guest in &mut plan.guests[1..3] {
        guest.deferrable = 1;
    }
    assert_eq!(refusal(&plan, 2), by(21));
    assert_eq!(refusal(&plan, 3), by(21));
}

#[test]
fn an_id_that_is_absent_is_7() {
    let plan = with_something_past(&plan_a_exchanged());
    for id in [0, 8, plan.guests[2].id, plan.guests[7].id] {
        assert_eq!(refusal(&plan, id), by(7));
    }
    assert_eq!(refusal(&deferrable(plan_a()), 8), by(7));
}

#[test]
fn the_records_come_first() {
    let mut plan = deferrable(plan_a_exchanged());
    plan.guests[1].run[1] = 0;
    assert_eq!(refusal(&plan, 9), Refusal::new(6, 1));
    assert_eq!(refusal(&plan, 7), Refusal::new(6, 1));
    assert_eq!(refusal(&plan, 8), Refusal::new(6, 1));
    plan.guests[0].capacity = 6;
    assert_eq!(refusal(&plan, 8), Refusal::new(4, 0));
    plan.count = 9;
    assert_eq!(refusal(&plan, 8), Refusal::new(1, 0));
}
