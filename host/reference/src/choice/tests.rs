mod every_choice;
mod refusals;

use super::*;
use crate::plan::Guest;
use crate::samples::{falling, full, plan_a, plan_a_bound, plan_a_exchanged};
use crate::verdict::{NO, YES, accept, smallest_capacity};

/// What is chosen for a plan that is not refused.
fn choice(plan: &Plan) -> Plan {
    let outcome = least_capacities(plan);
    assert_eq!(outcome.refusal, Refusal::NONE);
    outcome.plan
}

/// The plan with these capacities of its first guests.
fn with_capacities(plan: &Plan, capacities: &[u32]) -> Plan {
    let mut changed = *plan;
    for (guest, capacity) in changed.guests.iter_mut().zip(capacities) {
        guest.capacity = *capacity;
    }
    changed
}

/// The plan with something past its counts: in entries and marks past the tasks, and in guests past the count.
fn with_something_past(plan: &Plan) -> Plan {
    let mut changed = *plan;
    for guest in &mut changed.guests[plan.count as usize..] {
        *guest = Guest {
            deferrable: 7,
            ..Guest::new(7, 3, 2, &[[1, 9, 9], [0, 8, 9]])
        };
    }
    for guest in &mut changed.guests {
        let past = guest.tasks as usize;
        guest.marks |= (u32::from(u16::MAX) << past) as u16;
        guest.run[past..].fill(5);
        guest.deadline[past..].fill(6);
    }
    changed
}

#[test]
fn plan_a_has_the_least_capacities_1_and_6() {
    assert_eq!(choice(&plan_a()), with_capacities(&plan_a(), &[1, 6]));
    assert_eq!(accept(&with_capacities(&plan_a(), &[1, 6])).verdict, YES);
    assert_eq!(accept(&with_capacities(&plan_a(), &[1, 5])).verdict, NO);
}

#[test]
fn each_is_under_what_is_chosen_above() {
    assert_eq!(smallest_capacity(&plan_a(), 9).ticks, 7);
    assert_eq!(
        smallest_capacity(&with_capacities(&plan_a(), &[1]), 9).ticks,
        6
    );
}

#[test]
fn stored_capacities_play_no_part() {
    for first in 1..=5 {
        for second in 1..=20 {
            let plan = with_capacities(&plan_a(), &[first, second]);
            assert_eq!(choice(&plan), with_capacities(&plan_a(), &[1, 6]));
        }
    }
}

#[test]
fn what_is_chosen_is_accepted_and_comes_back_the_same() {
    let bound = [1, 2, 3].map(plan_a_bound);
    for plan in [plan_a(), falling(), full()].iter().chain(&bound) {
        let chosen = choice(plan);
        assert_eq!(accept(&chosen).verdict, YES);
        assert_eq!(choice(&chosen), chosen);
    }
}

#[test]
fn a_plan_that_is_not_accepted_may_have_a_choice() {
    let plan = plan_a_exchanged();
    assert_eq!(accept(&plan).verdict, NO);
    assert_eq!(choice(&plan), with_capacities(&plan, &[1, 9]));
}

#[test]
fn what_is_past_the_counts_stays() {
    let plan = with_something_past(&plan_a());
    let chosen = with_something_past(&with_capacities(&plan_a(), &[1, 6]));
    assert_eq!(choice(&plan), chosen);
}

#[test]
fn a_guest_may_need_its_whole_period() {
    let plan = Plan::new(&[Guest::new(1, 1, 4, &[[4, 4, 4]])]);
    assert_eq!(choice(&plan), with_capacities(&plan, &[4]));
}
