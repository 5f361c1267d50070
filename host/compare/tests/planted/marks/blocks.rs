//! Wrong readings of blocks with marks.

use super::{all_of, changed, passes, put_short, short};
use compare::side::{REFERENCE, Side};
use reference::plan::{BLOCK, Read, Refusal, read};

/// Whether nothing wrong is found with a reading, all else being right.
fn read_passes(wrong: fn(&[u8]) -> Read) -> bool {
    passes(Side {
        read: wrong,
        ..REFERENCE
    })
}

/// The marks that a block may have.
fn all_marks(block: &[u8]) -> u16 {
    all_of(u32::from(short(block, 16)))
}

/// A reading with blocks changed before it, where the right one refuses by this number.
pub fn let_through(bytes: &[u8], number: u32, change: impl Fn(&mut [u8])) -> Read {
    let right = read(bytes);
    match right.refusal.number == number {
        true => read(&changed(bytes, change)),
        false => right,
    }
}

/// A refusal of a reading.
pub fn refused(number: u32, place: u32) -> Read {
    Read {
        refusal: Refusal::new(number, place),
        ..Read::default()
    }
}

/// A reading that refuses the block which the right one refuses by this number by another, if it is so.
pub fn by_another(bytes: &[u8], number: u32, is_so: impl Fn(&[u8]) -> bool, other: u32) -> Read {
    let right = read(bytes);
    let Refusal {
        number: given,
        place,
    } = right.refusal;
    let block = bytes.chunks_exact(BLOCK).nth(place as usize);
    match given == number && block.is_some_and(is_so) {
        true => refused(other, place),
        false => right,
    }
}

#[test]
fn the_multiple_not_asked_of_bytes() {
    assert!(!read_passes(|bytes| {
        let mut outcome = let_through(bytes, 6, |block| {
            put_short(block, 0, 1);
            put_short(block, 20, 0);
        });
        for (guest, block) in outcome
            .plan
            .guests
            .iter_mut()
            .zip(bytes.chunks_exact(BLOCK))
        {
            if outcome.refusal == Refusal::NONE && short(block, 0) == 2 {
                guest.marks = short(block, 20);
            }
        }
        outcome
    }));
}

#[test]
fn marks_past_the_tasks_accepted() {
    assert!(!read_passes(|bytes| {
        let_through(bytes, 5, |block| {
            let marks = short(block, 20) & all_marks(block);
            if short(block, 0) == 2 && marks != 0 {
                put_short(block, 20, marks);
            }
        })
    }));
}

#[test]
fn marks_past_the_tasks_alone_accepted_as_no_marks() {
    assert!(!read_passes(|bytes| {
        let_through(bytes, 5, |block| {
            if short(block, 0) == 2 && short(block, 20) & all_marks(block) == 0 {
                put_short(block, 0, 1);
                put_short(block, 20, 0);
            }
        })
    }));
}

#[test]
fn marks_past_the_tasks_alone_refused_as_no_marks() {
    assert!(!read_passes(|bytes| {
        let none_live = |block: &[u8]| short(block, 20) & all_marks(block) == 0;
        by_another(
            bytes,
            5,
            |block| short(block, 0) == 2 && none_live(block),
            3,
        )
    }));
}

#[test]
fn kind_1_with_marks_accepted() {
    assert!(!read_passes(|bytes| {
        let_through(bytes, 5, |block| {
            if short(block, 0) == 1 {
                put_short(block, 20, 0);
            }
        })
    }));
}

#[test]
fn kind_1_with_marks_taken_as_kind_2() {
    assert!(!read_passes(|bytes| {
        let_through(bytes, 5, |block| {
            if short(block, 0) == 1 && short(block, 20) != 0 {
                put_short(block, 0, 2);
            }
        })
    }));
}

#[test]
fn kind_2_without_marks_accepted() {
    assert!(!read_passes(|bytes| {
        let_through(bytes, 3, |block| {
            if short(block, 0) == 2 && short(block, 20) == 0 {
                put_short(block, 0, 1);
            }
        })
    }));
}

#[test]
fn kind_2_without_marks_refused_as_a_byte_that_must_be_zero() {
    assert!(!read_passes(|bytes| {
        by_another(
            bytes,
            3,
            |block| short(block, 0) == 2 && short(block, 20) == 0,
            5,
        )
    }));
}

#[test]
fn kind_2_refused_as_before() {
    assert!(!read_passes(|bytes| {
        let unknown = |block: &[u8]| short(block, 0) == 2;
        match bytes.chunks_exact(BLOCK).position(unknown) {
            Some(place) if read(bytes).refusal == Refusal::NONE => refused(3, place as u32),
            _ => read(bytes),
        }
    }));
}

#[test]
fn the_high_byte_of_the_kind_not_looked_at() {
    assert!(!read_passes(|bytes| {
        let_through(bytes, 3, |block| {
            if block[0] == 2 {
                block[1] = 0;
            }
        })
    }));
}

#[test]
fn bytes_behind_the_marks_not_looked_at() {
    assert!(!read_passes(|bytes| {
        let_through(bytes, 5, |block| {
            if short(block, 0) == 2 {
                block[22..32].fill(0);
            }
        })
    }));
}

#[test]
fn a_byte_behind_the_marks_taken_for_marks() {
    assert!(!read_passes(|bytes| {
        by_another(bytes, 3, |block| short(block, 0) == 2 && block[23] != 0, 5)
    }));
}

#[test]
fn marks_lost_in_reading() {
    assert!(!read_passes(|bytes| {
        let mut outcome = read(bytes);
        for guest in &mut outcome.plan.guests {
            guest.marks = 0;
        }
        outcome
    }));
}

#[test]
fn marks_read_with_their_high_byte_first() {
    assert!(!read_passes(|bytes| {
        let mut outcome = read(bytes);
        for guest in &mut outcome.plan.guests {
            guest.marks = guest.marks.swap_bytes();
        }
        outcome
    }));
}
