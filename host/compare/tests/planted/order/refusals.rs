//! Wrong refusals, refusals that are not given, and a wrong order among them.

use super::{barred, decided, ordered, passes, place_of, refused};
use reference::order::Ordered;
use reference::plan::{Guest, Plan, Refusal, check};

/// What makes a guest one that is refused by 21.
fn is_barred(guest: &Guest) -> bool {
    guest.is_deferrable() || guest.marks_of_tasks() != 0
}

/// The right outcome, but one that is refused by a number is refused with another place.
fn with_place(plan: &Plan, id: u32, number: u32, place: impl Fn(usize) -> u32) -> Ordered {
    let mut outcome = ordered(plan, id);
    if outcome.refusal.number == number {
        outcome.refusal.place = place(plan.place_of(id).unwrap_or(plan.listed().len()));
    }
    outcome
}

#[test]
fn twenty_two_never_given() {
    assert!(!passes(|plan, id| decided(plan, id, |_, _| true)));
}

#[test]
fn twenty_two_always_given() {
    assert!(!passes(|plan, id| decided(plan, id, |_, _| false)));
}

#[test]
fn no_order_refused_by_11() {
    assert!(!passes(|plan, id| match ordered(plan, id) {
        Ordered {
            refusal: Refusal { number: 22, .. },
            ..
        } => refused(plan, 11),
        right => right,
    }));
}

#[test]
fn twenty_one_after_twenty_two() {
    assert!(!passes(|plan, id| {
        let taken = barred(plan, id, |_, _| false);
        match taken.refusal.number {
            22 => taken,
            _ => ordered(plan, id),
        }
    }));
}

#[test]
fn a_deferrable_guest_above_refused() {
    assert!(!passes(|plan, id| barred(plan, id, |plan, guest| {
        let mut above = plan.guests[..guest].iter();
        is_barred(&plan.guests[guest]) || above.any(Guest::is_deferrable)
    })));
}

#[test]
fn a_deferrable_guest_below_refused() {
    assert!(!passes(|plan, id| barred(plan, id, |plan, guest| {
        let mut from = plan.listed()[guest..].iter();
        is_barred(&plan.guests[guest]) || from.any(Guest::is_deferrable)
    })));
}

#[test]
fn a_bound_task_of_another_guest_refused() {
    assert!(!passes(|plan, id| barred(plan, id, |plan, guest| {
        let mut all = plan.listed().iter();
        is_barred(&plan.guests[guest]) || all.any(|other| other.marks_of_tasks() != 0)
    })));
}

#[test]
fn a_mark_past_the_tasks_refused() {
    assert!(!passes(|plan, id| barred(plan, id, |plan, guest| {
        let own = &plan.guests[guest];
        own.is_deferrable() || own.marks != 0
    })));
}

#[test]
fn a_deferrable_guest_taken() {
    assert!(!passes(|plan, id| barred(plan, id, |plan, guest| {
        plan.guests[guest].marks_of_tasks() != 0
    })));
}

#[test]
fn a_guest_that_is_deferrable_by_another_number_than_1_taken() {
    assert!(!passes(|plan, id| barred(plan, id, |plan, guest| {
        let own = &plan.guests[guest];
        own.deferrable == 1 || own.marks_of_tasks() != 0
    })));
}

#[test]
fn a_bound_task_taken() {
    assert!(!passes(|plan, id| barred(plan, id, |plan, guest| {
        plan.guests[guest].is_deferrable()
    })));
}

#[test]
fn a_bound_task_taken_unless_all_are_bound() {
    assert!(!passes(|plan, id| barred(plan, id, |plan, guest| {
        let own = &plan.guests[guest];
        own.is_deferrable() || own.places().all(|task| own.is_bound(task))
    })));
}

#[test]
fn the_first_tasks_mark_alone_looked_at() {
    assert!(!passes(|plan, id| barred(plan, id, |plan, guest| {
        let own = &plan.guests[guest];
        own.is_deferrable() || own.is_bound(0)
    })));
}

#[test]
fn the_last_tasks_mark_not_looked_at() {
    assert!(!passes(|plan, id| barred(plan, id, |plan, guest| {
        let own = &plan.guests[guest];
        own.is_deferrable() || own.places().rev().skip(1).any(|task| own.is_bound(task))
    })));
}

#[test]
fn seven_after_twenty_one() {
    assert!(!passes(|plan, id| {
        let right = ordered(plan, id);
        match right.refusal.number == 7 && plan.listed().iter().any(is_barred) {
            true => refused(plan, 21),
            false => right,
        }
    }));
}

#[test]
fn the_records_after_seven() {
    assert!(!passes(|plan, id| {
        match plan.guests.iter().any(|guest| guest.id == id) {
            true => ordered(plan, id),
            false => refused(plan, 7),
        }
    }));
}

#[test]
fn the_records_after_twenty_one() {
    assert!(!passes(|plan, id| {
        let mut listed = plan.guests.iter().take(plan.count as usize);
        let own = listed.find(|guest| guest.id == id);
        match own.is_some_and(|own| own.tasks <= 16 && is_barred(own)) {
            true => refused(plan, 21),
            false => ordered(plan, id),
        }
    }));
}

#[test]
fn records_below_the_guest_not_looked_at() {
    assert!(!passes(|plan, id| {
        let mut upper = *plan;
        let place = plan.guests.iter().position(|guest| guest.id == id);
        upper.count = plan.count.min(place.map_or(8, |place| place as u32 + 1));
        let mut outcome = match check(plan) {
            Refusal { number: 4 | 6, .. } => ordered(&upper, id),
            _ => ordered(plan, id),
        };
        outcome.plan.count = plan.count;
        outcome
    }));
}

#[test]
fn a_guest_past_the_count_found() {
    assert!(!passes(|plan, id| {
        let right = ordered(plan, id);
        let past = plan.guests.iter().position(|guest| guest.id == id);
        let (7, Some(place)) = (right.refusal.number, past) else {
            return right;
        };
        let mut longer = *plan;
        longer.count = place as u32 + 1;
        let mut outcome = ordered(&longer, id);
        outcome.plan.count = plan.count;
        outcome
    }));
}

#[test]
fn an_id_that_is_absent_taken_as_the_first_guests() {
    assert!(!passes(|plan, id| match ordered(plan, id) {
        Ordered {
            refusal: Refusal { number: 7, .. },
            ..
        } => ordered(plan, plan.guests[0].id),
        right => right,
    }));
}

#[test]
fn a_place_told_with_7() {
    assert!(!passes(
        |plan, id| with_place(plan, id, 7, |place| place as u32)
    ));
}

#[test]
fn a_place_told_with_21() {
    assert!(!passes(
        |plan, id| with_place(plan, id, 21, |place| place as u32)
    ));
}

#[test]
fn a_place_told_with_22() {
    assert!(!passes(
        |plan, id| with_place(plan, id, 22, |place| place as u32)
    ));
}

#[test]
fn the_place_of_the_records_refusals_lost() {
    assert!(!passes(|plan, id| {
        let mut outcome = ordered(plan, id);
        outcome.refusal.place = 0;
        outcome
    }));
}

#[test]
fn the_guests_place_told_where_nothing_is_refused() {
    assert!(!passes(|plan, id| {
        let mut outcome = ordered(plan, id);
        if outcome.refusal == Refusal::NONE {
            outcome.refusal.place = place_of(plan, id) as u32;
        }
        outcome
    }));
}
