//! What the converter refuses, and what it writes then: nothing.

use super::*;

/// The refusal of a plan with an output of so many bytes, which is as it was.
fn refusal(plan: &[u8], room: usize) -> Refusal {
    let mut out = vec![0xA5; room];
    let refusal = convert(plan, &mut out);
    assert_ne!(refusal, Refusal::NONE);
    assert!(out.iter().all(|byte| *byte == 0xA5));
    refusal
}

/// An old plan A with a byte of its second block changed, and the check made anew.
fn changed(at: usize, value: u8) -> Vec<u8> {
    let mut plan = blocks_of(&deferrable(plan_a_bound(1)));
    plan[BLOCK + at] = value;
    seal(&mut plan[BLOCK..]);
    plan
}

#[test]
fn lengths_that_are_no_plan() {
    let mut bytes = blocks_of(&deferrable(full()));
    bytes.resize(LONGEST_PLAN + BLOCK, 0);
    for length in [0, 1, 511, 513, 4_095, 4_097, 4_608] {
        for room in [0, 512, 5_000] {
            assert_eq!(refusal(&bytes[..length], room), Refusal::new(1, 0));
        }
    }
}

#[test]
fn the_reading_order_with_the_place_of_the_block() {
    let mut no_sum = blocks_of(&deferrable(plan_a()));
    no_sum[BLOCK + 300] = 1;
    for (plan, number) in [
        (no_sum, 2),
        (changed(0, 3), 3),
        (changed(2, 0), 3),
        (changed(4, 7), 4),
        (changed(22, 2), 5),
        (changed(23, 1), 5),
        (changed(32, 0), 6),
        (changed(36, 61), 6),
    ] {
        // An output that is too short is asked for last.
        for room in [0, 1_023, 1_024, 4_096] {
            assert_eq!(refusal(&plan, room), Refusal::new(number, 1));
        }
    }
    assert_eq!(refusal(&[0; BLOCK], 0), Refusal::new(3, 0));
}

#[test]
fn an_output_shorter_than_the_plan() {
    for plan in [deferrable(full()), full()] {
        let bytes = blocks_of(&plan);
        for blocks in 1..=8 {
            let part = &bytes[..BLOCK * blocks];
            for room in [0, 1, part.len() - BLOCK, part.len() - 1] {
                assert_eq!(refusal(part, room), Refusal::new(12, 0));
            }
            let mut exact = vec![0; part.len()];
            assert_eq!(convert(part, &mut exact), Refusal::NONE);
            assert_eq!(exact, converted(part));
        }
    }
}
