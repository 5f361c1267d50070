//! Choices that are refused wrongly, or by a wrong number or place.

use super::{by, passes, refused, smallest};
use reference::choice::{Chosen, least_capacities};
use reference::plan::{Guest, Plan, Refusal, check};
use reference::samples::periodic;

/// The right outcome, but for the place where it is refused by this number.
fn with_place(plan: &Plan, number: u32, place: impl Fn(u32) -> u32) -> Chosen {
    let mut outcome = least_capacities(plan);
    if outcome.refusal.number == number {
        outcome.refusal.place = place(outcome.refusal.place);
    }
    outcome
}

/// The outcome where something else decides whether it is 23; a plan that is taken all the same is taken as of Periodic
/// guests.
fn barred(plan: &Plan, is_23: impl Fn(&Plan) -> bool) -> Chosen {
    if check(plan) != Refusal::NONE {
        return least_capacities(plan);
    }
    if is_23(plan) {
        return refused(plan, 23, 0);
    }
    let mut outcome = least_capacities(&periodic(*plan));
    for (guest, before) in outcome.plan.guests.iter_mut().zip(&plan.guests) {
        guest.deferrable = before.deferrable;
    }
    outcome
}

#[test]
fn the_right_test_for_deferrable_guests_is_right() {
    assert!(passes(|plan| barred(plan, Plan::has_deferrable)));
}

#[test]
fn the_place_of_11_always_0() {
    assert!(!passes(|plan| with_place(plan, 11, |_| 0)));
}

#[test]
fn the_place_of_11_counted_from_1() {
    assert!(!passes(|plan| with_place(plan, 11, |place| place + 1)));
}

#[test]
fn the_place_of_the_last_guest_without_a_capacity() {
    assert!(!passes(|plan| {
        let right = least_capacities(plan);
        if right.refusal.number != 11 {
            return right;
        }
        let mut places = (0..plan.listed().len()).rev();
        match places.find(|guest| smallest(plan, *guest).is_none()) {
            Some(place) => refused(plan, 11, place),
            None => right,
        }
    }));
}

#[test]
fn a_place_told_with_23() {
    assert!(!passes(|plan| {
        let first = plan.guests.iter().position(Guest::is_deferrable);
        with_place(plan, 23, |_| first.unwrap_or(0) as u32)
    }));
}

#[test]
fn the_place_of_the_records_refusals_lost() {
    assert!(!passes(|plan| with_place(plan, 4, |_| 0)));
    assert!(!passes(|plan| with_place(plan, 6, |_| 0)));
}

#[test]
fn a_deferrable_guest_taken() {
    assert!(!passes(|plan| barred(plan, |_| false)));
}

#[test]
fn a_deferrable_guest_taken_where_it_is_the_lowest() {
    assert!(!passes(|plan| barred(plan, |plan| {
        let (_, above) = plan.listed().split_last().expect("a guest");
        above.iter().any(Guest::is_deferrable)
    })));
}

#[test]
fn a_guest_that_is_deferrable_by_another_number_than_1_taken() {
    assert!(!passes(|plan| barred(plan, |plan| {
        plan.listed().iter().any(|guest| guest.deferrable == 1)
    })));
}

#[test]
fn a_deferrable_guest_past_the_count_refused() {
    assert!(!passes(|plan| barred(plan, |plan| {
        plan.guests.iter().any(Guest::is_deferrable)
    })));
}

#[test]
fn eleven_before_twenty_three() {
    assert!(!passes(|plan| {
        let right = least_capacities(plan);
        if right.refusal.number != 23 {
            return right;
        }
        match least_capacities(&periodic(*plan)).refusal {
            Refusal { number: 11, place } => refused(plan, 11, place as usize),
            _ => right,
        }
    }));
}

#[test]
fn twenty_three_before_the_records() {
    assert!(!passes(|plan| {
        let mut listed = plan.guests.iter().take(plan.count as usize);
        match listed.any(Guest::is_deferrable) {
            true => refused(plan, 23, 0),
            false => least_capacities(plan),
        }
    }));
}

#[test]
fn guests_without_a_capacity_passed_over() {
    assert!(!passes(|plan| by(plan, |chosen, guest| {
        smallest(chosen, guest).or(Some(plan.guests[guest].capacity))
    })));
}

#[test]
fn a_guest_without_a_capacity_under_the_stored_ones_refused() {
    assert!(!passes(|plan| by(plan, |chosen, guest| {
        smallest(plan, guest).and(smallest(chosen, guest))
    })));
}
