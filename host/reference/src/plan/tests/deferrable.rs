//! The kind of a guest in records and blocks: P9 of document 02, and what the writer refuses by P13.

use super::*;
use crate::samples::{deferrable, plan_a_bound};

/// The refusal of plan A's blocks, both guests Deferrable, with some bytes put in and the checks made anew.
fn put(bytes: &[(usize, u8)]) -> Refusal {
    let mut blocks = blocks_of(&deferrable(plan_a()));
    for (at, value) in bytes {
        blocks[*at] = *value;
    }
    mend(&mut blocks);
    read(&blocks).refusal
}

/// Guest 9 of the bound plan A with these marks, and this number for its kind.
fn guest_9(marks: u16, deferrable: u32) -> Guest {
    Guest {
        deferrable,
        ..plan_a_bound(marks).guests[1]
    }
}

/// Kind, marks and bytes 22 and 23 in the one form of a guest's block.
fn form(guest: &Guest) -> [u8; 5] {
    let block = block_of(guest, 0);
    [0, 20, 21, 22, 23].map(|at| block[at])
}

#[test]
fn one_plan_has_one_form() {
    assert_eq!(form(&guest_9(0, 0)), [1, 0, 0, 0, 0]);
    assert_eq!(form(&guest_9(2, 0)), [2, 2, 0, 0, 0]);
    for number in [1, 2, 256, u32::MAX] {
        assert_eq!(form(&guest_9(0, number)), [2, 0, 0, 1, 0]);
        assert_eq!(form(&guest_9(3, number)), [2, 3, 0, 1, 0]);
        assert_eq!(form(&guest_9(0xFFFC, number)), [2, 0, 0, 1, 0]);
    }
}

#[test]
fn the_writer_writes_that_form_of_periodic_guests() {
    for marks in [0, 1, 2, 3, 0xFFFC, 0xFFFE] {
        let guest = guest_9(marks, 0);
        let mut buffer = [0xA5; BLOCK];
        assert_eq!(write(&guest, 5, &mut buffer), Refusal::NONE);
        assert_eq!(buffer, block_of(&guest, 5));
        assert_eq!(buffer[22], 0);
    }
}

/// The writer's refusal of a guest at a place, after which a buffer of so many bytes is as it was.
fn refusal_to_write(guest: &Guest, place: u32, length: usize) -> Refusal {
    let mut buffer = vec![0xA5; length];
    let refusal = write(guest, place, &mut buffer);
    assert!(buffer.iter().all(|byte| *byte == 0xA5));
    refusal
}

#[test]
fn a_deferrable_guest_is_not_written() {
    for number in [1, 2, 256, u32::MAX] {
        for marks in [0, 3, 0xFFFC] {
            let guest = guest_9(marks, number);
            assert_eq!(refusal_to_write(&guest, 6, 600), Refusal::new(23, 0));
        }
    }
}

#[test]
fn a_deferrable_guest_is_refused_by_the_writers_other_checks_first() {
    let guest = guest_9(0, 1);
    let no_id = Guest { id: 0, ..guest };
    let mut no_run = guest;
    no_run.run[1] = 0;
    let no_multiple = Guest {
        marks: 1,
        period: 19,
        ..guest
    };
    assert_eq!(refusal_to_write(&no_id, 8, 511), Refusal::new(12, 0));
    assert_eq!(refusal_to_write(&no_id, 8, 512), Refusal::new(3, 8));
    assert_eq!(refusal_to_write(&no_id, 7, 512), Refusal::new(4, 7));
    assert_eq!(refusal_to_write(&no_run, 7, 512), Refusal::new(6, 7));
    assert_eq!(refusal_to_write(&no_multiple, 7, 512), Refusal::new(6, 7));
    assert_eq!(refusal_to_write(&guest, 7, 512), Refusal::new(23, 0));
}

#[test]
fn mixed_plans_are_read_back() {
    for (first, second) in [(0, 0), (0, 1), (1, 0), (1, 1)] {
        for marks in 0..4 {
            let mut plan = plan_a_bound(marks);
            plan.guests[0].deferrable = first;
            plan.guests[1].deferrable = second;
            let outcome = read(&blocks_of(&plan));
            assert_eq!((outcome.refusal, outcome.plan), (Refusal::NONE, plan));
        }
    }
}

#[test]
fn any_number_but_0_says_deferrable_and_1_is_read() {
    let plan = Plan::new(&[guest_9(0, 77)]);
    assert_eq!(check(&plan), Refusal::NONE);
    assert_eq!(read(&blocks_of(&plan)).plan.guests[0], guest_9(0, 1));
}

#[test]
fn kind_2_needs_a_mark_or_a_1_in_byte_22() {
    let (periodic, other, beside) = ((22, 0), (22, 2), (23, 7));
    assert_eq!(put(&[periodic]), Refusal::new(3, 0));
    assert_eq!(put(&[other]), Refusal::new(3, 0));
    assert_eq!(put(&[(22, 255)]), Refusal::new(3, 0));
    assert_eq!(put(&[periodic, beside]), Refusal::new(3, 0));
    assert_eq!(put(&[periodic, (20, 1)]), Refusal::NONE);
    assert_eq!(put(&[beside]), Refusal::new(5, 0));
    assert_eq!(put(&[(23, 1)]), Refusal::new(5, 0));
}

#[test]
fn other_values_of_byte_22_are_refused_as_5() {
    for value in [2, 3, 128, 255] {
        assert_eq!(put(&[(22, value), (20, 1)]), Refusal::new(5, 0));
    }
    for at in 23..32 {
        assert_eq!(put(&[(at, 1)]), Refusal::new(5, 0));
    }
    // Guest 7 has one task: the second mark is past it, and so the only one.
    assert_eq!(put(&[(20, 2)]), Refusal::new(5, 0));
    assert_eq!(put(&[(21, 128)]), Refusal::new(5, 0));
}

#[test]
fn kind_1_is_periodic() {
    assert_eq!(put(&[(0, 1)]), Refusal::new(5, 0));
    assert_eq!(put(&[(0, 1), (22, 2)]), Refusal::new(5, 0));
    assert_eq!(put(&[(0, 1), (22, 0)]), Refusal::NONE);
}

#[test]
fn refusals_of_byte_22_in_the_readers_order() {
    let (other, mark, no_id, no_run) = ((22, 2), (20, 1), (4, 0), (32, 0));
    assert_eq!(put(&[other, no_id, no_run]), Refusal::new(3, 0));
    assert_eq!(put(&[other, mark, no_id, no_run]), Refusal::new(4, 0));
    assert_eq!(put(&[other, mark, no_run]), Refusal::new(5, 0));
    assert_eq!(put(&[mark, no_run]), Refusal::new(6, 0));
    assert_eq!(put(&[mark, (36, 21)]), Refusal::new(6, 0));
}
