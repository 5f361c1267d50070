//! Wrong verdicts and capacities of guests and tasks below Deferrable guests.

use super::{by_number_1, of_kinds, passes, periodic};
use compare::side::{REFERENCE, Side};
use reference::plan::{Guest, Plan};
use reference::verdict::{NO, Verdict, YES};
use reference::verdict::{accept, guest_verdict, smallest_capacity, task_verdict};

/// Whether nothing wrong is found with a verdict of a guest, all else being right.
fn guest_passes(wrong: fn(&Plan, u32) -> Verdict) -> bool {
    passes(Side {
        guest_verdict: wrong,
        ..REFERENCE
    })
}

/// Whether nothing wrong is found with a verdict of a task, all else being right.
fn task_passes(wrong: fn(&Plan, u32, u32) -> Verdict) -> bool {
    passes(Side {
        task_verdict: wrong,
        ..REFERENCE
    })
}

/// The verdict of a guest whose guests above count with another jitter.
fn with_jitter(plan: &Plan, id: u32, jitter: fn(&Guest) -> u32) -> Verdict {
    let right = guest_verdict(plan, id);
    if right.number != 0 {
        return right;
    }
    let guest = plan.place_of(id).expect("a guest");
    let own = &plan.guests[guest];
    let asked = |x: u32, above: &Guest| (x + jitter(above)).div_ceil(above.period) * above.capacity;
    let asked_above = |x| {
        plan.guests[..guest]
            .iter()
            .map(move |above| asked(x, above))
    };
    let found = (1..=own.period).find(|x| *x == own.capacity + asked_above(*x).sum::<u32>());
    Verdict {
        verdict: if found.is_some() { YES } else { NO },
        ticks: found.unwrap_or(0),
        ..right
    }
}

/// The right jitter of a guest.
fn jitter(guest: &Guest) -> u32 {
    match guest.is_deferrable() {
        true => guest.period - guest.capacity,
        false => 0,
    }
}

/// The plan with the guests above and the guest itself changed.
fn around(plan: &Plan, id: u32, change: impl Fn(&mut [Guest], &Guest)) -> Plan {
    let mut changed = *plan;
    let guest = plan.guests.iter().position(|guest| guest.id == id);
    let (above, own) = changed.guests.split_at_mut(guest.unwrap_or(0));
    change(above, &own[0]);
    changed
}

#[test]
fn the_right_jitter_is_right() {
    assert!(guest_passes(|plan, id| with_jitter(plan, id, jitter)));
}

#[test]
fn jitter_left_out_for_guests() {
    assert!(!guest_passes(|plan, id| guest_verdict(&periodic(plan), id)));
}

#[test]
fn jitter_left_out_for_tasks() {
    assert!(!task_passes(|plan, id, task| {
        let right = task_verdict(plan, id, task);
        match right.ticks {
            0 => right,
            _ => task_verdict(&periodic(plan), id, task),
        }
    }));
}

#[test]
fn jitter_of_periodic_guests_too() {
    assert!(!guest_passes(|plan, id| {
        with_jitter(plan, id, |guest| guest.period - guest.capacity)
    }));
    assert!(!task_passes(|plan, id, task| {
        task_verdict(&of_kinds(plan, |_| 1), id, task)
    }));
}

#[test]
fn the_whole_period_as_jitter() {
    assert!(!guest_passes(|plan, id| {
        with_jitter(plan, id, |guest| jitter(guest).min(1) * guest.period)
    }));
}

#[test]
fn the_capacity_as_jitter() {
    assert!(!guest_passes(|plan, id| {
        with_jitter(plan, id, |guest| jitter(guest).min(1) * guest.capacity)
    }));
}

#[test]
fn a_jitter_one_too_short() {
    assert!(!guest_passes(|plan, id| {
        with_jitter(plan, id, |guest| jitter(guest).saturating_sub(1))
    }));
}

#[test]
fn a_jitter_one_too_long() {
    assert!(!guest_passes(|plan, id| {
        with_jitter(plan, id, |guest| {
            jitter(guest) + u32::from(guest.is_deferrable())
        })
    }));
}

#[test]
fn the_kind_of_the_first_guest_taken_for_all_above() {
    fn by_the_first(plan: &Plan) -> Plan {
        of_kinds(plan, |_| plan.guests[0].deferrable)
    }
    assert!(!guest_passes(|plan, id| guest_verdict(
        &by_the_first(plan),
        id
    )));
    assert!(!task_passes(|plan, id, task| {
        task_verdict(&by_the_first(plan), id, task)
    }));
}

#[test]
fn the_own_kind_taken_for_those_above() {
    fn by_its_own(plan: &Plan, id: u32) -> Plan {
        around(plan, id, |above, own| {
            for guest in above {
                guest.deferrable = own.deferrable;
            }
        })
    }
    assert!(!guest_passes(|plan, id| guest_verdict(
        &by_its_own(plan, id),
        id
    )));
    assert!(!task_passes(|plan, id, task| {
        task_verdict(&by_its_own(plan, id), id, task)
    }));
}

#[test]
fn the_gap_of_a_deferrable_guests_own_tasks_left_out() {
    assert!(!task_passes(|plan, id, task| {
        let right = task_verdict(plan, id, task);
        let own = plan.listed().iter().find(|guest| guest.id == id);
        match own {
            Some(own) if right.ticks > 0 && !own.is_bound(task as usize - 1) => Verdict {
                ticks: right.ticks - jitter(own),
                ..right
            },
            _ => right,
        }
    }));
}

#[test]
fn the_number_1_alone_taken_as_deferrable() {
    assert!(!guest_passes(|plan, id| guest_verdict(
        &by_number_1(plan),
        id
    )));
    assert!(!task_passes(|plan, id, task| {
        task_verdict(&by_number_1(plan), id, task)
    }));
}

#[test]
fn an_acceptance_that_looks_at_no_kind() {
    assert!(!passes(Side {
        accept: |plan| accept(&periodic(plan)),
        ..REFERENCE
    }));
}

#[test]
fn a_search_for_the_capacity_that_looks_at_no_kind() {
    assert!(!passes(Side {
        smallest_capacity: |plan, id| smallest_capacity(&periodic(plan), id),
        ..REFERENCE
    }));
}
