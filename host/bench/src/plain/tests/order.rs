//! Orders with the reference's types, and some that are worked out by hand.

use super::{plan, plan_in, refusal};
use crate::exports;
use reference::order::Ordered;
use reference::plan::{Guest, Plan, Refusal};
use reference::samples::{deferrable, plan_a, plan_a_bound, plan_a_exchanged, unfit_above};

pub fn order(of: &Plan, id: u32) -> Ordered {
    let outcome = exports::order(plan_in(of), id);
    Ordered {
        refusal: refusal(outcome.refusal),
        plan: plan(&outcome.plan),
    }
}

/// What is proposed for a guest of a plan that is not refused.
fn proposal(of: &Plan, id: u32) -> Plan {
    let outcome = order(of, id);
    assert_eq!(outcome.refusal, Refusal::NONE);
    outcome.plan
}

/// Holds a refused order to its number; the plan must come back as it was.
fn refused(of: &Plan, id: u32, number: u32) {
    let outcome = order(of, id);
    assert_eq!(outcome.refusal, Refusal::new(number, 0));
    assert_eq!(outcome.plan, *of);
}

#[test]
fn plan_a_comes_back_and_equals_stay() {
    assert_eq!(proposal(&plan_a_exchanged(), 9), plan_a());
    let guest = |tasks| Plan::new(&[Guest::new(1, 10, 10, tasks)]);
    let handed_in = guest(&[[1, 30, 20], [2, 25, 20], [1, 10, 10]]);
    let sorted = guest(&[[1, 10, 10], [1, 30, 20], [2, 25, 20]]);
    assert_eq!(proposal(&handed_in, 1), sorted);
}

#[test]
fn what_has_no_order_is_refused() {
    let mut short = plan_a();
    short.guests[1].deadline[0] = 35;
    refused(&short, 9, 22);
    refused(&unfit_above(), 2, 22);
    refused(&unfit_above(), 3, 22);
    refused(&deferrable(plan_a_exchanged()), 9, 21);
    refused(&plan_a_bound(2), 9, 21);
    refused(&plan_a(), 8, 7);
    assert_eq!(proposal(&plan_a_bound(4), 9), plan_a_bound(4));
}
