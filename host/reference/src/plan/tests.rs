mod bound;
mod deferrable;

use super::*;
use crate::samples::plan_a;

fn mend(bytes: &mut [u8]) {
    bytes.chunks_mut(BLOCK).for_each(seal);
}

/// The refusal of plan A's blocks with one byte changed and the checks made anew.
fn changed(at: usize, value: u8) -> Refusal {
    let mut bytes = blocks_of(&plan_a());
    bytes[at] = value;
    mend(&mut bytes);
    read(&bytes).refusal
}

#[test]
fn plan_a_is_read_back() {
    let outcome = read(&blocks_of(&plan_a()));
    assert_eq!(outcome.refusal, Refusal::NONE);
    assert_eq!(outcome.plan, plan_a());
}

#[test]
fn plan_a_has_its_bytes_where_the_table_says() {
    let bytes = blocks_of(&plan_a());
    let second = &bytes[BLOCK..];
    assert_eq!(second[..4], [1, 0, 1, 0]);
    assert_eq!(
        second[4..20],
        [9, 0, 0, 0, 8, 0, 0, 0, 20, 0, 0, 0, 2, 0, 0, 0]
    );
    assert_eq!(second[32..44], [10, 0, 0, 0, 50, 0, 0, 0, 50, 0, 0, 0]);
    assert_eq!(second[44..56], [8, 0, 0, 0, 100, 0, 0, 0, 100, 0, 0, 0]);
    assert!(second[56..508].iter().all(|byte| *byte == 0));
}

#[test]
fn case_9_zero_bytes_and_empty_input() {
    assert_eq!(read(&[0; BLOCK]).refusal, Refusal::new(3, 0));
    assert_eq!(read(&[]).refusal, Refusal::new(1, 0));
}

#[test]
fn lengths_that_are_no_plan() {
    for length in [1, 511, 513, 1023, 4095, 4097, 4608, 5120] {
        assert_eq!(read(&vec![0; length]).refusal, Refusal::new(1, 0));
    }
    assert_eq!(read(&[0; LONGEST_PLAN]).refusal, Refusal::new(3, 0));
}

#[test]
fn a_block_that_does_not_sum_to_zero() {
    let mut bytes = blocks_of(&plan_a());
    bytes[BLOCK + 300] = 1;
    assert_eq!(read(&bytes).refusal, Refusal::new(2, 1));
    bytes[0] = 2;
    assert_eq!(read(&bytes).refusal, Refusal::new(2, 0));
}

#[test]
fn each_refusal_of_the_reader_behind_a_right_check() {
    assert_eq!(changed(0, 2), Refusal::new(3, 0));
    assert_eq!(changed(1, 1), Refusal::new(3, 0));
    assert_eq!(changed(BLOCK + 2, 0), Refusal::new(3, 1));
    assert_eq!(changed(4, 0), Refusal::new(4, 0));
    assert_eq!(changed(BLOCK + 4, 7), Refusal::new(4, 1));
    assert_eq!(changed(8, 0), Refusal::new(4, 0));
    assert_eq!(changed(8, 6), Refusal::new(4, 0));
    assert_eq!(changed(15, 1), Refusal::new(4, 0));
    assert_eq!(changed(16, 0), Refusal::new(4, 0));
    assert_eq!(changed(16, 17), Refusal::new(4, 0));
    assert_eq!(changed(17, 1), Refusal::new(4, 0));
    for at in [20, 31, 44, 223, 224, 507] {
        assert_eq!(changed(at, 1), Refusal::new(5, 0));
    }
    assert_eq!(changed(32, 0), Refusal::new(6, 0));
    assert_eq!(changed(40, 21), Refusal::new(6, 0));
    assert_eq!(changed(BLOCK + 44, 0), Refusal::new(6, 1));
    assert_eq!(changed(19, 255), Refusal::NONE);
}

#[test]
fn zeros_are_asked_for_before_the_tasks_numbers() {
    let mut bytes = blocks_of(&plan_a());
    bytes[32] = 0;
    bytes[44] = 1;
    mend(&mut bytes);
    assert_eq!(read(&bytes).refusal, Refusal::new(5, 0));
}

#[test]
fn the_finder_hands_back_the_block_as_it_stands() {
    let bytes = blocks_of(&plan_a());
    assert_eq!(find(&bytes, 9), Refusal::new(0, 1));
    assert_eq!(found(&bytes, 9), &bytes[BLOCK..]);
    assert_eq!(found(&bytes, 7), &bytes[..BLOCK]);
    for id in [0, 8] {
        assert_eq!(find(&bytes, id), Refusal::new(7, 0));
        assert!(found(&bytes, id).is_empty());
    }
    assert_eq!(find(&bytes[..500], 9), Refusal::new(1, 0));
}

#[test]
fn the_writer_refuses_in_its_order_and_then_writes_nothing() {
    let good = plan_a().guests[1];
    let no_id = Guest { id: 0, ..good };
    let mut no_run = good;
    no_run.run[1] = 0;
    let both = Guest { id: 0, ..no_run };
    for (guest, place, length, refusal) in [
        (good, 8, 511, Refusal::new(12, 0)),
        (both, 9, 512, Refusal::new(3, 9)),
        (good, u32::MAX, 512, Refusal::new(3, u32::MAX)),
        (both, 7, 512, Refusal::new(4, 7)),
        (no_id, 2, 512, Refusal::new(4, 2)),
        (no_run, 3, 512, Refusal::new(6, 3)),
    ] {
        let mut buffer = vec![0xA5; length];
        assert_eq!(write(&guest, place, &mut buffer), refusal);
        assert!(buffer.iter().all(|byte| *byte == 0xA5));
    }
}

#[test]
fn the_writer_writes_512_bytes_and_zeros_past_the_tasks() {
    let mut guest = plan_a().guests[0];
    guest.run[1] = 77;
    guest.deadline[15] = 78;
    let mut buffer = [0xA5; 600];
    assert_eq!(write(&guest, 0, &mut buffer), Refusal::NONE);
    assert_eq!(buffer[..BLOCK], blocks_of(&plan_a())[..BLOCK]);
    assert!(buffer[BLOCK..].iter().all(|byte| *byte == 0xA5));
}

#[test]
fn records_are_refused_guest_by_guest() {
    let mut plan = plan_a();
    plan.guests[0].deadline[0] = 21;
    plan.guests[1].id = 7;
    assert_eq!(check(&plan), Refusal::new(6, 0));
    plan.guests[0].deadline[0] = 20;
    assert_eq!(check(&plan), Refusal::new(4, 1));
    for count in [0, 9, u32::MAX] {
        assert_eq!(check(&Plan { count, ..plan }), Refusal::new(1, 0));
    }
}

#[test]
fn entries_past_the_counts_are_not_looked_at() {
    let mut plan = plan_a();
    plan.guests[0].run[1] = u32::MAX;
    plan.guests[2].id = 7;
    plan.guests[7].tasks = 99;
    assert_eq!(check(&plan), Refusal::NONE);
}

#[test]
fn a_run_longer_than_the_deadline_is_well_formed() {
    let plan = Plan::new(&[Guest::new(1, 1, 1, &[[1_000_000, 1, 1]])]);
    assert_eq!(check(&plan), Refusal::NONE);
}
