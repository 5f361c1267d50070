//! Wrong readings of blocks of Deferrable guests.

use super::{of_kinds, passes};
use crate::marks::blocks::{by_another, let_through, refused};
use crate::marks::short;
use compare::side::{REFERENCE, Side};
use reference::plan::{BLOCK, Read, Refusal, read};

/// Whether nothing wrong is found with a reading, all else being right.
fn read_passes(wrong: fn(&[u8]) -> Read) -> bool {
    passes(Side {
        read: wrong,
        ..REFERENCE
    })
}

/// Whether a block is of kind 2 without a mark.
fn is_unmarked(block: &[u8]) -> bool {
    short(block, 0) == 2 && short(block, 20) == 0
}

#[test]
fn byte_22_of_2_accepted_as_deferrable() {
    assert!(!read_passes(|bytes| {
        let_through(bytes, 5, |block| {
            if short(block, 0) == 2 {
                block[22] = block[22].min(1);
            }
        })
    }));
}

#[test]
fn the_lowest_bit_of_byte_22_looked_at_alone() {
    assert!(!read_passes(|bytes| {
        let_through(bytes, 5, |block| {
            if short(block, 0) == 2 {
                block[22] &= 1;
            }
        })
    }));
}

#[test]
fn another_value_of_byte_22_accepted_without_a_mark() {
    assert!(!read_passes(|bytes| {
        let_through(bytes, 3, |block| {
            if is_unmarked(block) && block[22] > 1 {
                block[22] = 1;
            }
        })
    }));
}

#[test]
fn another_value_of_byte_22_without_a_mark_refused_as_a_byte_that_must_be_zero() {
    assert!(!read_passes(|bytes| {
        by_another(bytes, 3, |block| is_unmarked(block) && block[22] > 1, 5)
    }));
}

#[test]
fn kind_2_of_a_periodic_guest_without_a_mark_accepted() {
    assert!(!read_passes(|bytes| {
        let_through(bytes, 3, |block| {
            if is_unmarked(block) && block[22] == 0 {
                block[0] = 1;
            }
        })
    }));
}

#[test]
fn byte_23_not_looked_at() {
    assert!(!read_passes(|bytes| {
        let_through(bytes, 5, |block| {
            if short(block, 0) == 2 {
                block[23] = 0;
            }
        })
    }));
}

#[test]
fn byte_23_looked_at_before_the_kind() {
    assert!(!read_passes(|bytes| {
        by_another(bytes, 3, |block| is_unmarked(block) && block[23] != 0, 5)
    }));
}

#[test]
fn byte_23_taken_for_the_need_of_kind_2() {
    assert!(!read_passes(|bytes| {
        by_another(bytes, 5, |block| is_unmarked(block) && block[23] != 0, 3)
    }));
}

#[test]
fn kind_1_with_a_1_in_byte_22_accepted_as_periodic() {
    assert!(!read_passes(|bytes| {
        let_through(bytes, 5, |block| {
            if short(block, 0) == 1 && block[22] == 1 {
                block[22] = 0;
            }
        })
    }));
}

#[test]
fn kind_1_with_a_1_in_byte_22_accepted_as_deferrable() {
    assert!(!read_passes(|bytes| {
        let_through(bytes, 5, |block| {
            if short(block, 0) == 1 && block[22] == 1 {
                block[0] = 2;
            }
        })
    }));
}

#[test]
fn kind_2_without_a_mark_refused_as_before() {
    assert!(!read_passes(|bytes| {
        match bytes.chunks_exact(BLOCK).position(is_unmarked) {
            Some(place) if read(bytes).refusal == Refusal::NONE => refused(3, place as u32),
            _ => read(bytes),
        }
    }));
}

#[test]
fn byte_22_refused_beside_marks() {
    assert!(!read_passes(|bytes| {
        let both = |block: &[u8]| short(block, 20) != 0 && block[22] == 1;
        match bytes.chunks_exact(BLOCK).position(both) {
            Some(place) if read(bytes).refusal == Refusal::NONE => refused(5, place as u32),
            _ => read(bytes),
        }
    }));
}

#[test]
fn marks_past_the_tasks_of_a_deferrable_guest_accepted() {
    assert!(!read_passes(|bytes| {
        let_through(bytes, 5, |block| {
            if short(block, 0) == 2 && block[22] == 1 && short(block, 20) == 0x8000 {
                block[21] = 0;
            }
        })
    }));
}

#[test]
fn deferrable_lost_in_reading() {
    assert!(!read_passes(|bytes| {
        let outcome = read(bytes);
        Read {
            plan: of_kinds(&outcome.plan, |_| 0),
            ..outcome
        }
    }));
}

#[test]
fn every_guest_of_kind_2_read_as_deferrable() {
    assert!(!read_passes(|bytes| {
        let outcome = read(bytes);
        let marked = |guest: &reference::plan::Guest| u32::from(guest.marks != 0);
        Read {
            plan: of_kinds(&outcome.plan, |guest| guest.deferrable | marked(guest)),
            ..outcome
        }
    }));
}
