//! Wrong starts of plans with Deferrable guests.

use super::{by_number_1, of_kinds, passes, periodic};
use compare::side::{REFERENCE, Side};
use reference::dispatcher::{Dispatcher, Start, fresh};
use reference::plan::{Guest, Plan, Refusal, check};

/// The number that a plan with a Deferrable guest is refused by.
const DEFERRABLE: Refusal = Refusal::new(23, 0);

/// Whether nothing wrong is found with a start, all else being right.
fn start_passes(wrong: fn(&Plan) -> Start) -> bool {
    passes(Side {
        fresh: wrong,
        ..REFERENCE
    })
}

/// A start of these records.
fn started(records: Plan) -> Start {
    Start {
        refusal: Refusal::NONE,
        dispatcher: Dispatcher::with(records),
    }
}

/// A refused start.
fn refused(refusal: Refusal) -> Start {
    Start {
        refusal,
        dispatcher: Dispatcher::with(Plan::default()),
    }
}

/// The start with the kinds of other records looked at; the records come back as they were handed over.
fn by_kinds_of(plan: &Plan, records: Plan) -> Start {
    match fresh(&records).refusal {
        Refusal::NONE => started(*plan),
        refusal => refused(refusal),
    }
}

/// The right start, but 23 of a Deferrable guest among all eight comes before this number.
fn before(plan: &Plan, number: u32) -> Start {
    let right = fresh(plan);
    match right.refusal.number == number && plan.guests.iter().any(Guest::is_deferrable) {
        true => refused(DEFERRABLE),
        false => right,
    }
}

#[test]
fn a_deferrable_guest_started() {
    assert!(!start_passes(|plan| by_kinds_of(plan, periodic(plan))));
}

#[test]
fn a_deferrable_guest_started_as_periodic() {
    assert!(!start_passes(|plan| match fresh(plan).refusal {
        DEFERRABLE => started(periodic(plan)),
        _ => fresh(plan),
    }));
}

#[test]
fn the_number_1_refused_alone() {
    assert!(!start_passes(|plan| by_kinds_of(plan, by_number_1(plan))));
}

#[test]
fn the_first_guest_looked_at_alone() {
    assert!(!start_passes(|plan| {
        let mut records = periodic(plan);
        records.guests[0].deferrable = plan.guests[0].deferrable;
        by_kinds_of(plan, records)
    }));
}

#[test]
fn the_last_guest_not_looked_at() {
    assert!(!start_passes(|plan| {
        let mut records = *plan;
        let last = plan.count.wrapping_sub(1) as usize;
        if let Some(guest) = records.guests.get_mut(last) {
            guest.deferrable = 0;
        }
        by_kinds_of(plan, records)
    }));
}

#[test]
fn a_guest_past_the_count_looked_at() {
    assert!(!start_passes(|plan| match check(plan) {
        Refusal::NONE if plan.guests.iter().any(Guest::is_deferrable) => refused(DEFERRABLE),
        _ => fresh(plan),
    }));
}

#[test]
fn the_guest_just_past_the_count_looked_at() {
    assert!(!start_passes(|plan| {
        let past = plan.guests.get(plan.count as usize);
        match check(plan) {
            Refusal::NONE if past.is_some_and(Guest::is_deferrable) => refused(DEFERRABLE),
            _ => fresh(plan),
        }
    }));
}

#[test]
fn the_kinds_past_the_count_lost() {
    assert!(!start_passes(|plan| match fresh(plan).refusal {
        Refusal::NONE => started(of_kinds(plan, |_| 0)),
        _ => fresh(plan),
    }));
}

#[test]
fn refusal_23_before_the_number_of_guests() {
    assert!(!start_passes(|plan| before(plan, 1)));
}

#[test]
fn refusal_23_before_a_guests_head() {
    assert!(!start_passes(|plan| before(plan, 4)));
}

#[test]
fn refusal_23_before_the_tasks_numbers() {
    assert!(!start_passes(|plan| before(plan, 6)));
}

#[test]
fn refusal_23_guest_by_guest() {
    assert!(!start_passes(|plan| {
        let right = fresh(plan);
        let earlier = &plan.guests[..right.refusal.place as usize];
        match earlier.iter().any(Guest::is_deferrable) {
            true => refused(DEFERRABLE),
            false => right,
        }
    }));
}

#[test]
fn refusal_23_with_the_place_of_the_guest() {
    assert!(!start_passes(|plan| match fresh(plan).refusal {
        DEFERRABLE => {
            let place = plan.guests.iter().position(Guest::is_deferrable);
            refused(Refusal::new(23, place.unwrap_or(0) as u32))
        }
        _ => fresh(plan),
    }));
}

#[test]
fn a_start_refused_as_a_state_is() {
    assert!(!start_passes(|plan| match fresh(plan).refusal {
        DEFERRABLE => refused(Refusal::new(14, 0)),
        _ => fresh(plan),
    }));
}

#[test]
fn the_records_kept_by_a_start_that_is_refused() {
    assert!(!start_passes(|plan| match fresh(plan).refusal {
        DEFERRABLE => Start {
            refusal: DEFERRABLE,
            ..started(*plan)
        },
        _ => fresh(plan),
    }));
}

#[test]
fn the_count_kept_by_a_start_that_is_refused() {
    assert!(!start_passes(|plan| {
        let mut start = fresh(plan);
        if start.refusal == DEFERRABLE {
            start.dispatcher.plan.count = plan.count;
        }
        start
    }));
}
