mod blocks;

use super::*;
use crate::plan::{Plan, blocks_of, read};
use crate::samples::{deferrable, falling, full, plan_a, plan_a_bound, unfit_above};

/// The answer, and what was written to an output that is long enough.
fn salvaged(file: &[u8]) -> (Salvaged, Vec<u8>) {
    let mut out = vec![0xA5; LONGEST_PLAN + 8];
    let outcome = salvage(file, &mut out);
    let (kept, past) = out.split_at(outcome.written as usize);
    assert!(past.iter().all(|byte| *byte == 0xA5));
    (outcome, kept.to_vec())
}

/// The numbers of the list.
fn numbers(outcome: &Salvaged) -> Vec<u32> {
    outcome.list().iter().map(|fate| fate.number).collect()
}

/// Plan A with the check of its first block damaged.
fn damaged_plan_a() -> Vec<u8> {
    let mut file = blocks_of(&plan_a());
    file[508] ^= 1;
    file
}

fn samples() -> Vec<Plan> {
    let bound = (1..4).map(plan_a_bound);
    let others = [plan_a(), falling(), unfit_above(), full()];
    let periodic: Vec<Plan> = bound.chain(others).collect();
    let as_deferrable = periodic.iter().map(|plan| deferrable(*plan));
    as_deferrable.chain(periodic.iter().copied()).collect()
}

#[test]
fn a_file_with_nothing_wrong_comes_back_the_same() {
    for plan in samples() {
        let file = blocks_of(&plan);
        let (outcome, bytes) = salvaged(&file);
        assert_eq!(bytes, file);
        assert_eq!(outcome.refusal, Refusal::NONE);
        assert_eq!(outcome.blocks, plan.count);
        for (place, fate) in (0..).zip(outcome.list()) {
            assert_eq!(*fate, Fate::kept(place));
        }
    }
}

#[test]
fn guest_9_comes_back_at_place_0() {
    let (outcome, bytes) = salvaged(&damaged_plan_a());
    assert_eq!(bytes, blocks_of(&Plan::new(&plan_a().guests[1..2])));
    assert_eq!(outcome.list(), [Fate::dropped(2), Fate::kept(0)]);
    assert_eq!(outcome.written, 512);
    assert_eq!(outcome.fates[2..], [Fate::default(); 6]);
}

#[test]
fn what_is_kept_reads_as_a_plan_and_is_kept_again() {
    for plan in [plan_a(), deferrable(plan_a_bound(1))] {
        let whole = blocks_of(&plan);
        for at in 0..whole.len() {
            let mut file = whole.clone();
            file[at] ^= 0x41;
            let (outcome, bytes) = salvaged(&file);
            assert_eq!(read(&bytes).refusal, Refusal::NONE);
            assert_eq!(salvaged(&bytes).1, bytes);
            assert_eq!(outcome.written, 512);
            assert_eq!(outcome.fates[at / BLOCK], Fate::dropped(2));
        }
    }
}

#[test]
fn a_tail_is_dropped_and_not_listed() {
    let file = blocks_of(&full());
    for length in (0..=file.len()).filter(|length| (length + 2) % BLOCK < 5) {
        let (outcome, bytes) = salvaged(&file[..length]);
        let whole = length / BLOCK;
        assert_eq!(outcome.blocks as usize, whole);
        assert_eq!(bytes, file[..BLOCK * whole]);
        let number = if whole == 0 { 20 } else { 0 };
        assert_eq!(outcome.refusal, Refusal::new(number, 0));
    }
}

#[test]
fn a_file_above_4096_is_1_with_an_empty_list() {
    let mut file = blocks_of(&full());
    assert_eq!(salvaged(&file).0.refusal, Refusal::NONE);
    for length in [4_097, 4_608, 10_000] {
        file.resize(length, 0);
        assert_eq!(salvaged(&file).0, Salvaged::refused(1));
        assert_eq!(salvage(&file, &mut []), Salvaged::refused(1));
    }
}

#[test]
fn an_output_shorter_than_the_kept_blocks_is_12_with_the_list() {
    let file = damaged_plan_a();
    let right = salvaged(&file);
    for length in [0, 1, 508, 511] {
        let mut out = vec![0xA5; length];
        let outcome = salvage(&file, &mut out);
        assert_eq!(outcome.refusal, Refusal::new(12, 0));
        assert_eq!(outcome.list(), right.0.list());
        assert_eq!(outcome.written, 0);
        assert_eq!(out, vec![0xA5; length]);
    }
    let mut out = vec![0; 512];
    assert_eq!(salvage(&file, &mut out), right.0);
    assert_eq!(out, right.1);
}

#[test]
fn nothing_kept_is_20_with_the_list_whatever_the_output() {
    let file = vec![0; 3 * BLOCK + 7];
    for length in [0, 511, 512, 4_096] {
        let mut out = vec![0xA5; length];
        let outcome = salvage(&file, &mut out);
        assert_eq!(outcome.refusal, Refusal::new(20, 0));
        assert_eq!(numbers(&outcome), [3, 3, 3]);
        assert_eq!(outcome.written, 0);
        assert_eq!(out, vec![0xA5; length]);
        assert_eq!(salvage(&[], &mut out), Salvaged::refused(20));
    }
}
