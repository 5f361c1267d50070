//! Marks in records and blocks: P8 of document 02.

use super::*;
use crate::samples::plan_a_bound;

/// The refusal of the bound plan A's blocks with some bytes put in and the checks made anew.
fn put(marks: u16, bytes: &[(usize, u8)]) -> Refusal {
    let mut blocks = blocks_of(&plan_a_bound(marks));
    for (at, value) in bytes {
        blocks[*at] = *value;
    }
    mend(&mut blocks);
    read(&blocks).refusal
}

/// The block that the writer gives for a guest at place 0.
fn written(guest: &Guest) -> [u8; BLOCK] {
    let mut block = [0xA5; BLOCK];
    assert_eq!(write(guest, 0, &mut block), Refusal::NONE);
    block
}

#[test]
fn kind_2_has_its_marks_in_bytes_20_and_21() {
    for (marks, kind) in [(0, 1), (1, 2), (2, 2), (3, 2)] {
        let bytes = blocks_of(&plan_a_bound(marks));
        assert_eq!(bytes[0], 1);
        assert_eq!(bytes[BLOCK..BLOCK + 4], [kind, 0, 1, 0]);
        assert_eq!(bytes[BLOCK + 20..BLOCK + 22], [marks as u8, 0]);
        assert_eq!(read(&bytes).plan, plan_a_bound(marks));
    }
    let all = Guest {
        marks: 0x8001,
        ..Guest::new(1, 1, 5, &[[1, 5, 5]; 16])
    };
    assert_eq!(written(&all)[20..22], [0x01, 0x80]);
}

#[test]
fn marks_past_the_tasks_are_not_looked_at_in_a_record() {
    let past = plan_a_bound(0xFFFC);
    assert_eq!(check(&past), Refusal::NONE);
    assert_eq!(blocks_of(&past), blocks_of(&plan_a_bound(0)));
    assert_eq!(
        blocks_of(&plan_a_bound(0xFFFE)),
        blocks_of(&plan_a_bound(2))
    );
}

#[test]
fn kinds_that_are_refused() {
    assert_eq!(put(1, &[(BLOCK, 3)]), Refusal::new(3, 1));
    assert_eq!(put(1, &[(BLOCK, 0)]), Refusal::new(3, 1));
    assert_eq!(put(1, &[(BLOCK + 1, 1)]), Refusal::new(3, 1));
    assert_eq!(put(1, &[(BLOCK + 20, 0)]), Refusal::new(3, 1));
    assert_eq!(put(0, &[(BLOCK, 2)]), Refusal::new(3, 1));
    // The bytes behind the marks are none of them.
    assert_eq!(put(0, &[(BLOCK, 2), (BLOCK + 22, 2)]), Refusal::new(3, 1));
    assert_eq!(put(0, &[(BLOCK, 2), (BLOCK + 23, 1)]), Refusal::new(3, 1));
    assert_eq!(put(0, &[(BLOCK, 2), (BLOCK + 20, 2)]), Refusal::NONE);
}

#[test]
fn bytes_that_must_be_zero_by_kind() {
    assert_eq!(put(1, &[(BLOCK, 1)]), Refusal::new(5, 1));
    for at in 20..32 {
        assert_eq!(put(0, &[(BLOCK + at, 1)]), Refusal::new(5, 1));
    }
    for at in 23..32 {
        assert_eq!(put(1, &[(BLOCK + at, 1)]), Refusal::new(5, 1));
    }
}

#[test]
fn marks_past_the_tasks_are_refused_in_a_block() {
    for (at, value) in [(20, 5), (20, 4), (20, 128), (21, 1), (21, 128)] {
        assert_eq!(put(1, &[(BLOCK + at, value)]), Refusal::new(5, 1));
    }
    let only_past = [(BLOCK + 20, 0), (BLOCK + 21, 1)];
    assert_eq!(put(1, &only_past), Refusal::new(5, 1));
}

#[test]
fn a_bound_tasks_period_is_a_multiple_of_its_guests() {
    let mut plan = plan_a_bound(1);
    plan.guests[1].every[0] = 50;
    plan.guests[1].deadline[0] = 50;
    assert_eq!(check(&plan), Refusal::new(6, 1));
    assert_eq!(read(&blocks_of(&plan)).refusal, Refusal::new(6, 1));
    let mut buffer = [0xA5; BLOCK];
    assert_eq!(write(&plan.guests[1], 4, &mut buffer), Refusal::new(6, 4));
    assert_eq!(buffer, [0xA5; BLOCK]);
    plan.guests[1].marks = 2;
    assert_eq!(check(&plan), Refusal::NONE);
    for (every, refused) in [(20, 0), (40, 0), (1_000_000, 0), (19, 6), (21, 6), (10, 6)] {
        let guest = Guest::new(1, 1, 20, &[[1, every, 1]]);
        let bound = Plan::new(&[Guest { marks: 1, ..guest }]);
        assert_eq!(check(&bound).number, refused);
    }
}

#[test]
fn refusals_of_marks_in_the_readers_order() {
    let (no_kind, no_marks) = ((BLOCK, 3), (BLOCK + 20, 0));
    let (no_id, past, no_run) = ((BLOCK + 4, 0), (BLOCK + 20, 5), (BLOCK + 32, 0));
    let no_multiple = (BLOCK + 36, 61);
    assert_eq!(put(1, &[no_kind, no_id, past]), Refusal::new(3, 1));
    assert_eq!(put(1, &[no_marks, no_id, no_run]), Refusal::new(3, 1));
    assert_eq!(put(1, &[no_id, past, no_run]), Refusal::new(4, 1));
    assert_eq!(put(1, &[past, no_run]), Refusal::new(5, 1));
    assert_eq!(put(1, &[past, no_multiple]), Refusal::new(5, 1));
    assert_eq!(put(1, &[no_multiple]), Refusal::new(6, 1));
    assert_eq!(put(2, &[no_multiple]), Refusal::NONE);
}
