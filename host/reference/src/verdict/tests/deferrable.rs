//! Deferrable guests in the equations: P9 of document 02.

use super::*;
use crate::samples::{deferrable, plan_a_bound};

/// What guest 9 and its two tasks have.
fn responses(plan: &Plan) -> [u32; 3] {
    let tasks = [1, 2].map(|task| task_verdict(plan, 9, task).ticks);
    [guest_verdict(plan, 9).ticks, tasks[0], tasks[1]]
}

/// Plan A with these numbers for the kinds of its guests.
fn plan_a_of(kinds: [u32; 2]) -> Plan {
    let mut plan = plan_a();
    plan.guests[0].deferrable = kinds[0];
    plan.guests[1].deferrable = kinds[1];
    plan
}

#[test]
fn plan_a_with_both_guests_deferrable() {
    let plan = deferrable(plan_a());
    assert_eq!(responses(&plan), [16, 38, 82]);
    assert_eq!(guest_verdict(&plan, 7), fitted_with(2));
    assert_eq!(task_verdict(&plan, 7, 1), met_with(4));
    assert_eq!(accept(&plan), Verdict::new(YES, 0));
}

#[test]
fn only_the_kind_of_a_guest_above_changes_a_response() {
    assert_eq!(responses(&plan_a_of([0, 1])), [14, 36, 80]);
    assert_eq!(responses(&plan_a_of([1, 0])), [16, 38, 82]);
    assert_eq!(responses(&plan_a_of([u32::MAX, 2])), [16, 38, 82]);
}

#[test]
fn bound_tasks_below_a_deferrable_guest() {
    let of = |marks| responses(&deferrable(plan_a_bound(marks)));
    assert_eq!(of(0), [16, 38, 58]);
    assert_eq!(of(1), [16, 26, 58]);
    assert_eq!(of(2), [16, 38, 46]);
    assert_eq!(of(3), [16, 26, 46]);
}

#[test]
fn the_jitter_comes_after_the_maximum() {
    let plan = deferrable(plan_a());
    let (above, own) = (&plan.guests[..1], &plan.guests[1]);
    // Load 10 takes two periods, so up to w = 20 the last one has not begun: the guest above has one capacity.
    let right = |w| right_side(above, own, 0, w);
    assert_eq!([right(1), right(20), right(22)], [24, 24, 24]);
    assert_eq!([right(23), right(27), right(28)], [26, 26, 28]);
    assert_eq!(taken_above(above, 0), 2);
}

#[test]
fn a_deferrable_guest_of_full_capacity_has_no_jitter() {
    let under = |deferrable| {
        let above = Guest {
            deferrable,
            ..Guest::new(1, 5, 5, &[[1, 20, 20]])
        };
        taken_above(&[above], 11)
    };
    assert_eq!([under(0), under(1)], [15, 15]);
}

/// With less capacity it can put off more, which is why least capacities are chosen for Periodic guests alone.
#[test]
fn a_deferrable_guest_with_less_capacity_can_take_more_of_a_window() {
    let taken = |deferrable, capacity| {
        let above = Guest {
            deferrable,
            ..Guest::new(1, capacity, 10, &[[1, 20, 20]])
        };
        taken_above(&[above], 5)
    };
    assert_eq!([taken(1, 5), taken(1, 4)], [5, 8]);
    assert_eq!([taken(0, 5), taken(0, 4)], [5, 4]);
}

#[test]
fn deadlines_between_the_two_kinds() {
    let mut plan = plan_a_of([1, 0]);
    plan.guests[1].deadline[..2].copy_from_slice(&[37, 81]);
    assert_eq!(task_verdict(&plan, 9, 1), unmet_with(38));
    assert_eq!(task_verdict(&plan, 9, 2), unmet_with(82));
    assert_eq!(accept(&plan), Verdict::new(NO, 0));
    plan.guests[0].deferrable = 0;
    assert_eq!(accept(&plan), Verdict::new(YES, 0));
    let mut three_sixths = under_two_fifths(3, 6);
    assert_eq!(guest_verdict(&three_sixths, 2), fitted_with(5));
    three_sixths.guests[0].deferrable = 1;
    assert_eq!(guest_verdict(&three_sixths, 2), UNFIT);
    assert_eq!(task_verdict(&three_sixths, 3, 1), Verdict::new(UNJUDGED, 0));
}

#[test]
fn the_smallest_capacity_below_a_deferrable_guest() {
    let smallest = |kinds, deadlines: [u32; 2]| {
        let mut plan = plan_a_of(kinds);
        plan.guests[1].deadline[..2].copy_from_slice(&deadlines);
        smallest_capacity(&plan, 9)
    };
    assert_eq!(smallest([0, 0], [50, 80]), Verdict::new(YES, 8));
    assert_eq!(smallest([0, 1], [50, 80]), Verdict::new(YES, 8));
    assert_eq!(smallest([1, 1], [50, 82]), Verdict::new(YES, 8));
    assert_eq!(smallest([1, 0], [50, 81]), Verdict::new(YES, 9));
}
