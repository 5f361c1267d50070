//! What has to stay as it was handed in and does not, where an order is proposed and where it is refused.

use super::{passes, sorted, with, with_refused};
use reference::plan::{Guest, Plan};

/// The records' own refusals.
const RECORDS: [u32; 3] = [1, 4, 6];

/// The guests past the count.
fn past(plan: &mut Plan) -> &mut [Guest] {
    let count = (plan.count as usize).min(8);
    &mut plan.guests[count..]
}

/// Sorts the tasks of each guest from one place up to another.
fn sort(plan: &mut Plan, from: usize, to: usize) {
    for guest in from..to.min(8) {
        if plan.guests[guest].tasks <= 16 {
            *plan = sorted(plan, guest);
        }
    }
}

#[test]
fn marks_past_the_tasks_cleared() {
    assert!(!passes(|plan, id| with(plan, id, |changed, guest| {
        changed.guests[guest].marks = 0;
    })));
}

#[test]
fn marks_moved() {
    assert!(!passes(|plan, id| with(plan, id, |changed, guest| {
        let marks = &mut changed.guests[guest].marks;
        *marks = marks.rotate_left(1);
    })));
}

#[test]
fn entries_past_the_tasks_cleared() {
    assert!(!passes(|plan, id| with(plan, id, |changed, guest| {
        let own = &mut changed.guests[guest];
        let past = own.tasks as usize..;
        own.run[past.clone()].fill(0);
        own.every[past.clone()].fill(0);
        own.deadline[past].fill(0);
    })));
}

#[test]
fn entries_past_the_tasks_moved() {
    assert!(!passes(|plan, id| with(plan, id, |changed, guest| {
        let own = &mut changed.guests[guest];
        own.deadline[own.tasks as usize..].reverse();
    })));
}

#[test]
fn guests_past_the_count_cleared() {
    assert!(!passes(|plan, id| with(plan, id, |changed, _| {
        past(changed).fill(Guest::default());
    })));
}

#[test]
fn guests_past_the_count_sorted_too() {
    assert!(!passes(|plan, id| with(plan, id, |changed, _| {
        sort(changed, plan.listed().len(), 8);
    })));
}

#[test]
fn guests_above_sorted_too() {
    assert!(!passes(|plan, id| with(plan, id, |changed, guest| {
        sort(changed, 0, guest);
    })));
}

#[test]
fn guests_below_sorted_too() {
    assert!(!passes(|plan, id| with(plan, id, |changed, guest| {
        sort(changed, guest, plan.listed().len());
    })));
}

#[test]
fn another_guest_sorted_instead() {
    assert!(!passes(|plan, id| with(plan, id, |changed, _| {
        *changed = *plan;
        sort(changed, 0, 1);
    })));
}

#[test]
fn a_deferrable_guest_above_written_as_1() {
    assert!(!passes(|plan, id| with(plan, id, |changed, guest| {
        for above in &mut changed.guests[..guest] {
            above.deferrable = above.deferrable.min(1);
        }
    })));
}

#[test]
fn a_deferrable_guest_below_written_as_1() {
    assert!(!passes(|plan, id| with(plan, id, |changed, guest| {
        for below in &mut changed.guests[guest..] {
            below.deferrable = below.deferrable.min(1);
        }
    })));
}

#[test]
fn the_charge_cleared() {
    assert!(!passes(|plan, id| with(plan, id, |changed, guest| {
        changed.guests[guest].charge = 0;
    })));
}

#[test]
fn a_sorted_plan_handed_back_with_22() {
    assert!(!passes(|plan, id| with_refused(
        plan,
        id,
        &[22],
        |changed| {
            let guest = changed.place_of(id).expect("a guest");
            *changed = sorted(changed, guest);
        }
    )));
}

#[test]
fn a_sorted_plan_handed_back_with_21() {
    assert!(!passes(|plan, id| with_refused(
        plan,
        id,
        &[21],
        |changed| {
            let guest = changed.place_of(id).expect("a guest");
            *changed = sorted(changed, guest);
        }
    )));
}

#[test]
fn sorted_guests_handed_back_with_7() {
    assert!(!passes(|plan, id| with_refused(
        plan,
        id,
        &[7],
        |changed| {
            sort(changed, 0, plan.listed().len());
        }
    )));
}

#[test]
fn sorted_guests_handed_back_with_the_records_refusals() {
    assert!(!passes(|plan, id| with_refused(
        plan,
        id,
        &RECORDS,
        |changed| {
            sort(changed, 0, 8);
        }
    )));
}

#[test]
fn an_empty_plan_handed_back_with_7() {
    assert!(!passes(|plan, id| with_refused(
        plan,
        id,
        &[7],
        |changed| {
            *changed = Plan::default();
        }
    )));
}

#[test]
fn an_empty_plan_handed_back_with_21() {
    assert!(!passes(|plan, id| with_refused(
        plan,
        id,
        &[21],
        |changed| {
            *changed = Plan::default();
        }
    )));
}

#[test]
fn an_empty_plan_handed_back_with_22() {
    assert!(!passes(|plan, id| with_refused(
        plan,
        id,
        &[22],
        |changed| {
            *changed = Plan::default();
        }
    )));
}

#[test]
fn an_empty_plan_handed_back_with_the_records_refusals() {
    assert!(!passes(|plan, id| with_refused(
        plan,
        id,
        &RECORDS,
        |changed| {
            *changed = Plan::default();
        }
    )));
}

#[test]
fn guests_past_the_count_cleared_on_a_refusal() {
    assert!(!passes(|plan, id| with_refused(
        plan,
        id,
        &[7, 21, 22],
        |changed| {
            past(changed).fill(Guest::default());
        }
    )));
}

#[test]
fn marks_past_the_tasks_cleared_on_a_refusal() {
    assert!(!passes(|plan, id| with_refused(
        plan,
        id,
        &[7, 21, 22],
        |changed| {
            for guest in changed.guests.iter_mut().take(plan.listed().len()) {
                guest.marks = guest.marks_of_tasks();
            }
        }
    )));
}
