//! Tasks sorted in a wrong way.

use super::{all_met, passes, with};
use reference::order::{Ordered, by_deadline, reordered};
use reference::plan::{Guest, Plan};
use std::cmp::Reverse;

/// The right outcome, but with the guest's tasks in another order.
fn placed(plan: &Plan, id: u32, places: impl Fn(&Guest) -> Vec<usize>) -> Ordered {
    with(plan, id, |changed, guest| {
        *changed = reordered(plan, guest, &places(&plan.guests[guest]));
    })
}

/// The same with the tasks sorted by another key, equals as handed in.
fn keyed<K: Ord>(plan: &Plan, id: u32, key: impl Fn(&Guest, usize) -> K) -> Ordered {
    placed(plan, id, |guest| {
        let mut places: Vec<usize> = guest.places().collect();
        places.sort_by_key(|task| key(guest, *task));
        places
    })
}

#[test]
fn the_right_key_is_right() {
    assert!(passes(|plan, id| keyed(plan, id, |guest, task| {
        guest.deadline[task]
    })));
}

#[test]
fn equals_exchanged() {
    assert!(!passes(|plan, id| keyed(plan, id, |guest, task| {
        (guest.deadline[task], Reverse(task))
    })));
}

#[test]
fn equals_sorted_by_run() {
    assert!(!passes(|plan, id| keyed(plan, id, |guest, task| {
        (guest.deadline[task], guest.run[task])
    })));
}

#[test]
fn equals_sorted_by_period() {
    assert!(!passes(|plan, id| keyed(plan, id, |guest, task| {
        (guest.deadline[task], guest.every[task])
    })));
}

#[test]
fn sorted_by_period() {
    assert!(!passes(
        |plan, id| keyed(plan, id, |guest, task| guest.every[task])
    ));
}

#[test]
fn sorted_by_run() {
    assert!(!passes(
        |plan, id| keyed(plan, id, |guest, task| guest.run[task])
    ));
}

#[test]
fn sorted_from_the_latest_deadline_on() {
    assert!(!passes(|plan, id| keyed(plan, id, |guest, task| {
        Reverse(guest.deadline[task])
    })));
}

#[test]
fn sorted_by_deadline_less_run() {
    assert!(!passes(|plan, id| keyed(plan, id, |guest, task| {
        guest.deadline[task].saturating_sub(guest.run[task])
    })));
}

#[test]
fn sorted_by_the_lower_half_of_the_deadline() {
    assert!(!passes(|plan, id| keyed(plan, id, |guest, task| {
        guest.deadline[task] as u16
    })));
}

#[test]
fn left_as_handed_in_where_that_works() {
    assert!(!passes(|plan, id| with(plan, id, |changed, guest| {
        if all_met(plan, guest) {
            *changed = *plan;
        }
    })));
}

#[test]
fn neighbours_exchanged_in_one_go_alone() {
    assert!(!passes(|plan, id| placed(plan, id, |guest| {
        let mut places: Vec<usize> = guest.places().collect();
        for at in 1..places.len() {
            if guest.deadline[places[at - 1]] > guest.deadline[places[at]] {
                places.swap(at - 1, at);
            }
        }
        places
    })));
}

/// The right outcome, but with only some of the tasks sorted.
fn partly(plan: &Plan, id: u32, from: usize, to: impl Fn(usize) -> usize) -> Ordered {
    placed(plan, id, |guest| {
        let mut places: Vec<usize> = guest.places().collect();
        let end = to(places.len());
        places[from.min(end)..end].sort_by_key(|task| guest.deadline[*task]);
        places
    })
}

#[test]
fn the_first_task_left_out() {
    assert!(!passes(|plan, id| partly(plan, id, 1, |tasks| tasks)));
}

#[test]
fn the_last_task_left_out() {
    assert!(!passes(|plan, id| partly(plan, id, 0, |tasks| tasks - 1)));
}

#[test]
fn the_sixteenth_task_left_out() {
    assert!(!passes(
        |plan, id| partly(plan, id, 0, |tasks| tasks.min(15))
    ));
}

#[test]
fn an_entry_past_the_tasks_sorted_too() {
    assert!(!passes(|plan, id| with(plan, id, |changed, guest| {
        let mut longer = plan.guests[guest];
        longer.tasks = (longer.tasks + 1).min(16);
        *changed = reordered(plan, guest, &by_deadline(&longer));
    })));
}

/// The columns of a guest that are to stay as handed in.
type Columns = fn(&mut Guest) -> [&mut [u32; 16]; 2];

/// The right outcome, but with two columns, of which one may stand for both, left as they were.
fn parted(plan: &Plan, id: u32, columns: Columns) -> Ordered {
    with(plan, id, |changed, guest| {
        let mut before = plan.guests[guest];
        let now = columns(&mut changed.guests[guest]);
        for (now, before) in now.into_iter().zip(columns(&mut before)) {
            *now = *before;
        }
    })
}

#[test]
fn deadlines_parted_from_their_runs_and_periods() {
    assert!(!passes(|plan, id| parted(plan, id, |guest| {
        [&mut guest.run, &mut guest.every]
    })));
}

#[test]
fn periods_parted_from_their_runs_and_deadlines() {
    assert!(!passes(|plan, id| parted(plan, id, |guest| {
        [&mut guest.run, &mut guest.deadline]
    })));
}

#[test]
fn runs_parted_from_their_periods_and_deadlines() {
    assert!(!passes(|plan, id| parted(plan, id, |guest| {
        [&mut guest.every, &mut guest.deadline]
    })));
}

#[test]
fn nothing_reordered() {
    assert!(!passes(
        |plan, id| with(plan, id, |changed, _| *changed = *plan)
    ));
}
