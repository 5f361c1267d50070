mod refusals;

use super::*;
use crate::samples::{deferrable, falling, full, plan_a, plan_a_exchanged};
use crate::verdict::{NO, YES, accept, task_verdict};

/// What is proposed for a guest of a plan that is not refused.
fn proposal(plan: &Plan, id: u32) -> Plan {
    let outcome = order(plan, id);
    assert_eq!(outcome.refusal, Refusal::NONE);
    outcome.plan
}

/// The plan with something past its counts: in entries and marks past the tasks, and in guests past the count.
fn with_something_past(plan: &Plan) -> Plan {
    let mut changed = *plan;
    for (at, guest) in changed.guests.iter_mut().enumerate() {
        if at >= plan.count as usize {
            *guest = Guest::new(90 + at as u32, 1, 2, &[[1, 9, 9], [1, 8, 8]]);
            guest.deferrable = 7;
        }
        let past = guest.tasks as usize;
        guest.marks |= (u32::from(u16::MAX) << past) as u16;
        for column in [&mut guest.run, &mut guest.every, &mut guest.deadline] {
            (0..)
                .zip(&mut column[past..])
                .for_each(|(at, entry)| *entry = 20 - at);
        }
    }
    changed
}

#[test]
fn plan_a_with_its_tasks_exchanged_comes_back_as_plan_a() {
    let plan = plan_a_exchanged();
    assert_eq!(task_verdict(&plan, 9, 1).ticks, 26);
    assert_eq!(task_verdict(&plan, 9, 2).verdict, NO);
    assert_eq!(proposal(&plan, 9), plan_a());
}

#[test]
fn equals_come_as_handed_in() {
    let guest = |tasks| Plan::new(&[Guest::new(1, 10, 10, tasks)]);
    let plan = guest(&[[1, 30, 20], [2, 25, 20], [1, 10, 10]]);
    let sorted = guest(&[[1, 10, 10], [1, 30, 20], [2, 25, 20]]);
    assert_eq!(proposal(&plan, 1), sorted);
    let plan = guest(&[[2, 25, 20], [1, 10, 10], [1, 30, 20]]);
    let sorted = guest(&[[1, 10, 10], [2, 25, 20], [1, 30, 20]]);
    assert_eq!(proposal(&plan, 1), sorted);
}

#[test]
fn an_order_that_works_is_sorted_all_the_same() {
    let plan = Plan::new(&[Guest::new(1, 10, 10, &[[1, 40, 40], [1, 30, 30]])]);
    assert_eq!(accept(&plan).verdict, YES);
    let sorted = Plan::new(&[Guest::new(1, 10, 10, &[[1, 30, 30], [1, 40, 40]])]);
    assert_eq!(proposal(&plan, 1), sorted);
}

#[test]
fn what_is_proposed_comes_back_the_same() {
    for plan in [plan_a(), plan_a_exchanged(), falling(), full()] {
        for guest in plan.listed() {
            let once = proposal(&plan, guest.id);
            assert_eq!(proposal(&once, guest.id), once);
        }
    }
}

#[test]
fn what_is_past_the_counts_stays() {
    let plan = with_something_past(&plan_a_exchanged());
    let mut sorted = with_something_past(&plan_a());
    assert_eq!(proposal(&plan, 9), sorted);
    sorted.guests[1].deadline[0] = 35;
    let refused = order(&sorted, 9);
    assert_eq!((refused.refusal.number, refused.plan), (22, sorted));
}

#[test]
fn other_guests_stay_and_those_below_are_not_judged() {
    let descending = [[1, 60, 60], [1, 50, 50]];
    let mut plan = Plan::new(&[
        Guest::new(7, 2, 5, &[[1, 20, 20], [30, 19, 19]]),
        plan_a_exchanged().guests[1],
        Guest::new(3, 9, 9, &descending),
    ]);
    plan.guests[2].deferrable = 5;
    let mut sorted = plan;
    sorted.guests[1] = plan_a().guests[1];
    assert_eq!(task_verdict(&plan, 7, 2).verdict, NO);
    assert_eq!(proposal(&plan, 9), sorted);
}

#[test]
fn a_deferrable_guest_above_is_counted_with_its_jitter() {
    let mut plan = plan_a_exchanged();
    plan.guests[0].deferrable = 1;
    let sorted = proposal(&plan, 9);
    assert_eq!(task_verdict(&sorted, 9, 1).ticks, 38);
    assert_eq!(task_verdict(&sorted, 9, 2).ticks, 82);
    plan.guests[1].deadline[1] = 37;
    assert_eq!(order(&plan, 9).refusal, Refusal::new(22, 0));
    plan.guests[0].deferrable = 0;
    assert_eq!(order(&plan, 9).refusal, Refusal::NONE);
}

#[test]
fn sixteen_tasks_come_back_the_other_way_about() {
    let task = |at: u32| [1, 300 + at, 200 + at];
    let ascending: Vec<[u32; 3]> = (0..16).map(task).collect();
    let descending: Vec<[u32; 3]> = (0..16).rev().map(task).collect();
    let plan_of = |tasks: &[[u32; 3]]| Plan::new(&[Guest::new(1, 10, 10, tasks)]);
    assert_eq!(proposal(&plan_of(&descending), 1), plan_of(&ascending));
}

#[test]
fn every_order_is_tried() {
    // These fill the core, and are met in just this order.
    let tasks = [[4, 8, 7], [4, 12, 12], [4, 24, 24]];
    let plan_of = |tasks: &[[u32; 3]]| Plan::new(&[Guest::new(1, 1, 1, tasks)]);
    for first in 0..3 {
        for second in (0..3).filter(|second| *second != first) {
            let third = 3 - first - second;
            let plan = plan_of(&[tasks[first], tasks[second], tasks[third]]);
            let works = accept(&plan).verdict == YES;
            assert_eq!(works, [first, second] == [0, 1]);
            assert_eq!(proposal(&plan, 1), plan_of(&tasks));
        }
    }
}

#[test]
fn the_deferrable_samples_are_refused() {
    for plan in [plan_a(), falling(), full()] {
        for guest in plan.listed() {
            let plan = deferrable(plan);
            let refused = order(&plan, guest.id);
            assert_eq!((refused.refusal, refused.plan), (Refusal::new(21, 0), plan));
        }
    }
}
