//! Least capacities with the reference's types, and some that are worked out by hand.

use super::{plan, plan_in, refusal};
use crate::exports;
use reference::choice::Chosen;
use reference::plan::{Plan, Refusal};
use reference::samples::{deferrable, plan_a};

pub fn least_capacities(of: &Plan) -> Chosen {
    let outcome = exports::least_capacities(plan_in(of));
    Chosen {
        refusal: refusal(outcome.refusal),
        plan: plan(&outcome.plan),
    }
}

/// Holds a refused choice to its number and place; the plan must come back as it was.
fn refused(of: &Plan, number: u32, place: u32) {
    let outcome = least_capacities(of);
    assert_eq!(outcome.refusal, Refusal::new(number, place));
    assert_eq!(outcome.plan, *of);
}

#[test]
fn plan_a_has_1_and_6() {
    let mut least = plan_a();
    least.guests[0].capacity = 1;
    least.guests[1].capacity = 6;
    let outcome = least_capacities(&plan_a());
    assert_eq!((outcome.refusal, outcome.plan), (Refusal::NONE, least));
}

#[test]
fn what_has_no_choice_is_refused() {
    let mut short = plan_a();
    short.guests[1].deadline[0] = 9;
    refused(&short, 11, 1);
    short.guests[1].capacity = 21;
    refused(&short, 4, 1);
    refused(&deferrable(plan_a()), 23, 0);
}
