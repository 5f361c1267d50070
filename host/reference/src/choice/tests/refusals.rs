use super::*;
use crate::samples::{deferrable, long_gap, unfit_above};

/// The refusal of a plan, which must come back as it was.
fn refusal(plan: &Plan) -> Refusal {
    let outcome = least_capacities(plan);
    assert_eq!(outcome.plan, *plan);
    outcome.refusal
}

/// The full plan with the last deadline of each of these guests too short for any capacity.
fn hopeless(places: &[usize]) -> Plan {
    let mut plan = full();
    for place in places {
        plan.guests[*place].deadline[15] = 15;
    }
    plan
}

#[test]
fn eleven_has_the_place_of_the_first_guest_without_a_capacity() {
    for first in 0..8 {
        for second in first..8 {
            assert_eq!(
                refusal(&hopeless(&[first, second])),
                Refusal::new(11, first as u32)
            );
        }
    }
    assert_eq!(refusal(&with_something_past(&hopeless(&[3]))).place, 3);
}

#[test]
fn a_guest_that_leaves_no_room_is_told_by_the_one_below() {
    let plan = Plan::new(&[
        Guest::new(1, 1, 2, &[[1, 2, 1]]),
        Guest::new(2, 1, 2, &[[1, 2, 1]]),
    ]);
    assert_eq!(refusal(&plan), Refusal::new(11, 1));
}

#[test]
fn an_unfit_guest_is_no_refusal() {
    assert_eq!(accept(&unfit_above()).verdict, NO);
    assert_eq!(accept(&choice(&unfit_above())).verdict, YES);
    assert_eq!(choice(&long_gap()).guests[0].capacity, 992);
}

#[test]
fn a_deferrable_guest_among_those_of_the_count_is_23() {
    assert_eq!(refusal(&deferrable(plan_a())), Refusal::new(23, 0));
    for number in [1, 2, 256, u32::MAX] {
        for place in 0..8 {
            let mut plan = full();
            plan.guests[place].deferrable = number;
            assert_eq!(refusal(&plan), Refusal::new(23, 0));
            plan.count = place as u32;
            assert!(place == 0 || least_capacities(&plan).refusal == Refusal::NONE);
        }
    }
}

#[test]
fn twenty_three_comes_before_eleven() {
    let mut plan = hopeless(&[0]);
    assert_eq!(refusal(&plan), Refusal::new(11, 0));
    plan.guests[7].deferrable = 1;
    assert_eq!(refusal(&plan), Refusal::new(23, 0));
}

#[test]
fn the_records_come_first() {
    let mut plan = deferrable(plan_a());
    plan.guests[1].run[1] = 0;
    assert_eq!(refusal(&plan), Refusal::new(6, 1));
    plan.guests[1].capacity = 21;
    assert_eq!(refusal(&plan), Refusal::new(4, 1));
    plan.guests[0].deadline[0] = 21;
    assert_eq!(refusal(&plan), Refusal::new(6, 0));
    plan.count = 9;
    assert_eq!(refusal(&plan), Refusal::new(1, 0));
    plan.count = 0;
    assert_eq!(refusal(&plan), Refusal::new(1, 0));
}
