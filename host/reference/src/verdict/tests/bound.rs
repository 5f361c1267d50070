//! Tasks that start with their guest's period: P8 of document 02.

use super::*;
use crate::samples::plan_a_bound;

/// The responses of guest 9's two tasks with these marks.
fn responses(marks: u16) -> [u32; 2] {
    let plan = plan_a_bound(marks);
    [1, 2].map(|task| task_verdict(&plan, 9, task).ticks)
}

#[test]
fn a_bound_tasks_response_is_its_window() {
    assert_eq!(responses(0), [36, 56]);
    assert_eq!(responses(1), [24, 56]);
    assert_eq!(responses(2), [36, 44]);
    assert_eq!(responses(3), [24, 44]);
}

#[test]
fn marks_past_the_tasks_change_no_verdict() {
    for marks in 0..4 {
        assert_eq!(responses(0xFFFC + marks), responses(marks));
    }
}

#[test]
fn a_bound_task_loads_those_below_without_a_gap() {
    let tasks = [[1, 8, 8], [2, 40, 40]];
    let with = |marks| Guest {
        marks,
        ..Guest::new(1, 2, 4, &tasks)
    };
    let loads = |marks| [7, 8].map(|w| load(&with(marks), 1, w));
    assert_eq!(loads(0), [4, 4]);
    assert_eq!(loads(2), [4, 4]);
    assert_eq!(loads(1), [3, 3]);
    assert_eq!(loads(3), [3, 3]);
}

#[test]
fn an_unbound_task_above_a_bound_one_keeps_its_gap() {
    let tasks = [[1, 6, 6], [1, 8, 8], [1, 40, 40]];
    let guest = Guest {
        marks: 0b110,
        ..Guest::new(1, 1, 4, &tasks)
    };
    assert_eq!([load(&guest, 1, 3), load(&guest, 1, 4)], [2, 3]);
    assert_eq!([load(&guest, 2, 8), load(&guest, 2, 9)], [4, 5]);
    assert_eq!(task_verdict(&Plan::new(&[guest]), 1, 1), met_with(4));
}

#[test]
fn a_deadline_that_only_a_bound_task_meets() {
    let mut plan = plan_a_bound(1);
    plan.guests[1].deadline[0] = 24;
    assert_eq!(task_verdict(&plan, 9, 1), met_with(24));
    assert_eq!(accept(&plan), Verdict::new(YES, 0));
    plan.guests[1].deadline[0] = 23;
    assert_eq!(task_verdict(&plan, 9, 1), unmet_with(24));
    plan.guests[1].marks = 0;
    assert_eq!(task_verdict(&plan, 9, 1), unmet_with(36));
}

#[test]
fn the_smallest_capacity_of_a_guest_with_bound_tasks() {
    let smallest = |marks, deadlines: [u32; 2]| {
        let mut plan = plan_a_bound(marks);
        plan.guests[1].deadline[..2].copy_from_slice(&deadlines);
        smallest_capacity(&plan, 9)
    };
    assert_eq!(smallest(0, [60, 100]), Verdict::new(YES, 7));
    assert_eq!(smallest(1, [60, 100]), Verdict::new(YES, 6));
    assert_eq!(smallest(0, [24, 44]), refused(11, 0));
    assert_eq!(smallest(1, [24, 56]), Verdict::new(YES, 8));
    assert_eq!(smallest(3, [24, 44]), Verdict::new(YES, 8));
    let mut plan = plan_a_bound(1);
    plan.guests[1].every[0] = 50;
    plan.guests[1].deadline[0] = 50;
    assert_eq!(smallest_capacity(&plan, 9), refused(6, 1));
}
