//! What has to stay as it was handed in and does not, where capacities are chosen and where that is refused.

use super::{passes, smallest, with, with_refused};
use reference::plan::{Guest, Plan, Refusal};

/// The guests past the count.
fn past(plan: &mut Plan) -> &mut [Guest] {
    let count = (plan.count as usize).min(8);
    &mut plan.guests[count..]
}

#[test]
fn what_was_chosen_above_handed_back_with_11() {
    assert!(!passes(|plan| with_refused(plan, &[11], |changed| {
        let mut guest = 0;
        while let Some(capacity) = smallest(changed, guest) {
            changed.guests[guest].capacity = capacity;
            guest += 1;
        }
    })));
}

#[test]
fn an_empty_plan_handed_back_with_a_refusal() {
    assert!(!passes(|plan| with_refused(plan, &[11], |changed| {
        *changed = Plan::default();
    })));
    assert!(!passes(|plan| with_refused(plan, &[23], |changed| {
        *changed = Plan::default();
    })));
    assert!(!passes(|plan| with_refused(plan, &[1, 4, 6], |changed| {
        *changed = Plan::default();
    })));
}

#[test]
fn a_deferrable_guest_written_as_1() {
    assert!(!passes(|plan| with_refused(plan, &[23], |changed| {
        for guest in &mut changed.guests {
            guest.deferrable = guest.deferrable.min(1);
        }
    })));
}

#[test]
fn guests_past_the_count_cleared() {
    assert!(!passes(|plan| with(plan, |changed| {
        past(changed).fill(Guest::default());
    })));
    assert!(!passes(|plan| with_refused(plan, &[11], |changed| {
        past(changed).fill(Guest::default());
    })));
}

#[test]
fn guests_past_the_count_chosen_for_too() {
    assert!(!passes(|plan| with(plan, |changed| {
        past(changed)
            .iter_mut()
            .for_each(|guest| guest.capacity = 1);
    })));
}

#[test]
fn marks_past_the_tasks_cleared() {
    assert!(!passes(|plan| with(plan, |changed| {
        for guest in changed.guests.iter_mut().take(plan.listed().len()) {
            guest.marks = guest.marks_of_tasks();
        }
    })));
}

#[test]
fn entries_past_the_tasks_cleared() {
    assert!(!passes(|plan| with(plan, |changed| {
        for guest in changed.guests.iter_mut().take(plan.listed().len()) {
            guest.run[guest.tasks as usize..].fill(0);
        }
    })));
}

#[test]
fn the_charge_cleared() {
    assert!(!passes(|plan| with(plan, |changed| {
        changed.guests[0].charge = 0;
    })));
}

#[test]
fn a_place_told_where_nothing_is_refused() {
    assert!(!passes(|plan| {
        let mut outcome = with(plan, |_| ());
        if outcome.refusal == Refusal::NONE {
            outcome.refusal.place = plan.count - 1;
        }
        outcome
    }));
}
