mod refusals;

use super::*;
use crate::plan::{LONGEST_PLAN, Plan, blocks_of};
use crate::samples::{
    deferrable, falling, full, long_gap, periodic, plan_a, plan_a_bound, unfit_above,
};
use crate::verdict::{YES, accept, guest_verdict, task_verdict};

/// What a plan that is not refused becomes, in an output that stays past it.
fn converted(plan: &[u8]) -> Vec<u8> {
    let mut out = vec![0xA5; LONGEST_PLAN + 8];
    assert_eq!(convert(plan, &mut out), Refusal::NONE);
    let past = out.split_off(plan.len());
    assert!(past.iter().all(|byte| *byte == 0xA5));
    out
}

/// A full plan, guests with marks and without, with the guests Deferrable that have a bit in these.
fn mixed(kinds: usize) -> Plan {
    let mut plan = full();
    for (at, guest) in plan.guests.iter_mut().enumerate() {
        guest.marks = [0, 1, 0x8000, 0, 0x0100, 0xFFFF, 0, 0x0180][at];
        guest.deferrable = (kinds >> at & 1) as u32;
    }
    plan
}

/// The samples, each with its guests in every mix of kinds.
fn samples() -> Vec<Plan> {
    let plans = (0..4)
        .map(plan_a_bound)
        .chain([plan_a(), falling(), long_gap(), unfit_above()]);
    let mut all = Vec::new();
    for plan in plans {
        for kinds in 0..1 << plan.count {
            let mut plan = plan;
            for (at, guest) in plan.guests[..plan.count as usize].iter_mut().enumerate() {
                guest.deferrable = kinds >> at & 1;
            }
            all.push(plan);
        }
    }
    all
}

#[test]
fn an_old_plan_a_becomes_plan_a() {
    let old = blocks_of(&deferrable(plan_a()));
    assert_eq!([old[0], old[22], old[BLOCK], old[BLOCK + 22]], [2, 1, 2, 1]);
    assert_eq!(converted(&old), blocks_of(&plan_a()));
}

#[test]
fn kind_1_without_marks_and_kind_2_with_them() {
    for marks in 0..4 {
        let bytes = converted(&blocks_of(&deferrable(plan_a_bound(marks))));
        let kind = if marks == 0 { 1 } else { 2 };
        let head = [0, 20, 21, 22].map(|at| bytes[BLOCK + at]);
        assert_eq!(head, [kind, marks as u8, 0, 0]);
        assert_eq!(bytes, blocks_of(&plan_a_bound(marks)));
    }
}

#[test]
fn every_mix_of_kinds_becomes_the_periodic_plan() {
    let right = blocks_of(&mixed(0));
    for kinds in 0..1 << 8 {
        assert_eq!(converted(&blocks_of(&mixed(kinds))), right);
    }
    for plan in samples() {
        let bytes = converted(&blocks_of(&plan));
        assert_eq!(bytes, blocks_of(&periodic(plan)));
        assert_eq!(read(&bytes).plan, periodic(plan));
    }
}

#[test]
fn kind_byte_22_and_the_check_change_alone() {
    let old = blocks_of(&mixed(0xFF));
    let bytes = converted(&old);
    let mut changed = (0..old.len()).filter(|at| old[*at] != bytes[*at]);
    assert!(changed.all(|at| matches!(at % BLOCK, 0 | 22 | 508..)));
    // The marks, places, ids and entries are there to be lost.
    assert_eq!(read(&bytes).plan, mixed(0));
}

#[test]
fn a_plan_without_deferrable_guests_comes_back_and_so_does_a_converted_one() {
    for plan in samples() {
        let once = converted(&blocks_of(&plan));
        assert_eq!(converted(&once), once);
        let own = blocks_of(&periodic(plan));
        assert_eq!(converted(&own), own);
    }
}

#[test]
fn plan_as_responses_before_and_after() {
    let old = blocks_of(&deferrable(plan_a()));
    for (bytes, responses) in [(old.clone(), [16, 38, 82]), (converted(&old), [14, 36, 80])] {
        let plan = read(&bytes).plan;
        let tasks = [1, 2].map(|task| task_verdict(&plan, 9, task).ticks);
        let guest = guest_verdict(&plan, 9).ticks;
        assert_eq!([guest, tasks[0], tasks[1]], responses);
    }
}

#[test]
fn what_is_fitted_met_or_quoted_stays_so_with_a_response_no_larger() {
    for old in samples() {
        let new = read(&converted(&blocks_of(&old))).plan;
        assert!(accept(&old).verdict != YES || accept(&new).verdict == YES);
        for guest in old.listed() {
            let fitted = [&old, &new].map(|plan| guest_verdict(plan, guest.id));
            assert!(fitted[0].verdict != YES || fitted[1].verdict == YES);
            assert!(fitted[0].verdict != YES || fitted[1].ticks <= fitted[0].ticks);
            for task in 1..=guest.tasks {
                let [before, after] = [&old, &new].map(|plan| task_verdict(plan, guest.id, task));
                assert!(before.verdict != YES || after.verdict == YES);
                assert!(before.ticks == 0 || (1..=before.ticks).contains(&after.ticks));
            }
        }
    }
}
