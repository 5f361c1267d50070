mod bound;
mod deferrable;

use super::*;
use crate::plan::Guest;
use crate::samples::{falling, long_gap, plan_a, unfit_above};

const UNFIT: Verdict = Verdict::new(NO, 0);
const UNMET: Verdict = Verdict::new(NO, 0);

fn fitted_with(x: u32) -> Verdict {
    Verdict::new(YES, x)
}

fn met_with(r: u32) -> Verdict {
    Verdict::new(YES, r)
}

fn unmet_with(r: u32) -> Verdict {
    Verdict::new(NO, r)
}

fn refused(number: u32, place: u32) -> Verdict {
    Verdict::of(Err(Refusal::new(number, place)))
}

/// Plan A with other deadlines for guest 9's tasks.
fn plan_a_with(deadlines: [u32; 2]) -> Plan {
    let mut plan = plan_a();
    plan.guests[1].deadline[..2].copy_from_slice(&deadlines);
    plan
}

/// A guest under 2/5, with one task.
fn under_two_fifths(capacity: u32, period: u32) -> Plan {
    Plan::new(&[
        Guest::new(1, 2, 5, &[[1, 100, 100]]),
        Guest::new(2, capacity, period, &[[1, 100, 100]]),
        Guest::new(3, 1, 100, &[[1, 1000, 1000]]),
    ])
}

#[test]
fn case_1_guests() {
    assert_eq!(guest_verdict(&under_two_fifths(8, 20), 1), fitted_with(2));
    assert_eq!(guest_verdict(&under_two_fifths(8, 20), 2), fitted_with(14));
    assert_eq!(guest_verdict(&under_two_fifths(3, 6), 2), fitted_with(5));
    assert_eq!(guest_verdict(&under_two_fifths(4, 6), 2), UNFIT);
}

#[test]
fn case_1_tasks_at_and_below_an_unfit_guest_are_unjudged() {
    let plan = under_two_fifths(4, 6);
    let unjudged = Verdict::new(UNJUDGED, 0);
    assert_eq!(task_verdict(&plan, 1, 1).verdict, YES);
    assert_eq!(task_verdict(&plan, 2, 1), unjudged);
    assert_eq!(task_verdict(&plan, 3, 1), unjudged);
    assert_eq!(accept(&plan), Verdict::new(NO, 0));
}

#[test]
fn a_guest_below_an_unfit_one_can_be_fitted() {
    let plan = unfit_above();
    assert_eq!(guest_verdict(&plan, 2), UNFIT);
    assert_eq!(guest_verdict(&plan, 3), fitted_with(8));
    assert_eq!(task_verdict(&plan, 3, 1), Verdict::new(UNJUDGED, 0));
    assert_eq!(smallest_capacity(&plan, 3), refused(11, 0));
}

#[test]
fn case_2_plan_a() {
    assert_eq!(task_verdict(&plan_a(), 7, 1), met_with(4));
    assert_eq!(task_verdict(&plan_a(), 9, 1), met_with(36));
    assert_eq!(task_verdict(&plan_a(), 9, 2), met_with(80));
    assert_eq!(accept(&plan_a()), Verdict::new(YES, 0));
    let exact = plan_a_with([36, 80]);
    assert_eq!(task_verdict(&exact, 9, 1), met_with(36));
    assert_eq!(task_verdict(&exact, 9, 2), met_with(80));
    let short = plan_a_with([35, 79]);
    assert_eq!(task_verdict(&short, 9, 1), unmet_with(36));
    assert_eq!(task_verdict(&short, 9, 2), unmet_with(80));
    assert_eq!(accept(&short), Verdict::new(NO, 0));
}

#[test]
fn case_3_the_right_side_falls() {
    let mut plan = falling();
    assert_eq!(task_verdict(&plan, 2, 2), met_with(30));
    let right = |w| right_side(&plan.guests[..1], &plan.guests[1], 1, w);
    assert_eq!((right(20), right(21), right(22)), (20, 28, 23));
    plan.guests[1].deadline[1] = 29;
    assert_eq!(task_verdict(&plan, 2, 2), unmet_with(30));
}

#[test]
fn a_response_past_the_period_is_not_quoted() {
    let of = |every, deadline| Plan::new(&[Guest::new(1, 2, 5, &[[3, every, deadline]])]);
    assert_eq!(task_verdict(&of(9, 9), 1, 1), met_with(9));
    assert_eq!(task_verdict(&of(9, 8), 1, 1), unmet_with(9));
    assert_eq!(task_verdict(&of(8, 8), 1, 1), UNMET);
    assert_eq!(accept(&of(9, 9)), Verdict::new(YES, 0));
    assert_eq!(accept(&of(9, 8)), Verdict::new(NO, 0));
}

#[test]
fn case_4_a_charge() {
    let mut plan = plan_a();
    plan.guests[1].charge = 1;
    assert_eq!(task_verdict(&plan, 9, 1), met_with(40));
}

#[test]
fn case_5_smallest_capacity() {
    assert_eq!(smallest_capacity(&plan_a(), 9), Verdict::new(YES, 7));
    let mut plan = plan_a();
    plan.guests[1].capacity = 7;
    assert_eq!(task_verdict(&plan, 9, 1), met_with(38));
    assert_eq!(task_verdict(&plan, 9, 2), met_with(86));
    plan.guests[1].capacity = 6;
    assert_eq!(task_verdict(&plan, 9, 2), UNMET);
}

#[test]
fn case_6_no_capacity_works() {
    let mut plan = under_two_fifths(1, 6);
    plan.guests[1] = Guest::new(2, 1, 6, &[[4, 6, 6]]);
    assert_eq!(smallest_capacity(&plan, 2), refused(11, 0));
}

#[test]
fn case_7_the_first_gap_is_past_the_deadline() {
    assert_eq!(guest_verdict(&long_gap(), 1), fitted_with(1));
    assert_eq!(task_verdict(&long_gap(), 1, 1), UNMET);
}

#[test]
fn smallest_capacity_under_an_unfit_guest_is_refusal_11() {
    assert_eq!(
        smallest_capacity(&under_two_fifths(4, 6), 3),
        refused(11, 0)
    );
    assert_eq!(smallest_capacity(&under_two_fifths(4, 6), 2).verdict, YES);
}

#[test]
fn smallest_capacity_does_not_judge_guests_below() {
    let plan = Plan::new(&[
        Guest::new(1, 1, 2, &[[1, 2, 1]]),
        Guest::new(2, 1, 2, &[[1, 2, 1]]),
    ]);
    assert_eq!(smallest_capacity(&plan, 1), Verdict::new(YES, 2));
    let mut out_of_range = plan;
    out_of_range.guests[0].capacity = 3;
    assert_eq!(smallest_capacity(&out_of_range, 1), refused(4, 0));
}

#[test]
fn more_cases_where_the_right_side_falls() {
    let first = Plan::new(&[
        Guest::new(1, 4, 7, &[[1, 7, 7]]),
        Guest::new(2, 3, 9, &[[1, 7, 7], [1, 15, 15]]),
    ]);
    let right = |w| right_side(&first.guests[..1], &first.guests[1], 1, w);
    assert_eq!((right(7), right(8), right(9)), (7, 11, 10));
    assert_eq!(task_verdict(&first, 2, 2), met_with(13));
    let second = Plan::new(&[
        Guest::new(1, 1, 2, &[[1, 5, 5]]),
        Guest::new(2, 1, 2, &[[1, 5, 5], [1, 6, 6]]),
    ]);
    let right = |w| right_side(&second.guests[..1], &second.guests[1], 1, w);
    assert_eq!((right(4), right(5)), (4, 6));
    assert_eq!(task_verdict(&second, 2, 2), met_with(5));
}

#[test]
fn nothing_wraps_at_the_largest_numbers() {
    let mut lowest = Guest::new(1, 1, 1_000_000, &[[1_000_000, 1, 1]; 16]);
    lowest.charge = 65_535;
    let load_of_15 = 15 * 1_131_070u128 * 1_999_998;
    assert_eq!(load(&lowest, 15, 999_999), 1_131_070 + load_of_15);
    let n = 1_131_070 + load_of_15;
    assert_eq!(right_side(&[], &lowest, 15, 999_999), n + (n - 1) * 999_999);
    lowest.every[15] = 1_000_000;
    lowest.deadline[15] = 1_000_000;
    assert_eq!(task_verdict(&Plan::new(&[lowest]), 1, 16), UNMET);
}

#[test]
fn refusals_in_their_order() {
    let plan = plan_a();
    let mut bad = plan;
    bad.guests[1].period = 0;
    assert_eq!(guest_verdict(&bad, 0), refused(4, 1));
    assert_eq!(task_verdict(&bad, 9, 0), refused(4, 1));
    assert_eq!(accept(&bad), refused(4, 1));
    assert_eq!(smallest_capacity(&bad, 8), refused(4, 1));
    assert_eq!(guest_verdict(&plan, 0), refused(7, 0));
    assert_eq!(task_verdict(&plan, 8, 0), refused(7, 0));
    assert_eq!(task_verdict(&plan, 9, 0), refused(8, 0));
    assert_eq!(task_verdict(&plan, 9, 3), refused(8, 0));
    assert_eq!(smallest_capacity(&plan, 8), refused(7, 0));
}
