//! Wrong blocks written for guests with marks.

use super::{passes, put_short, short};
use compare::side::{REFERENCE, Side};
use reference::plan::{BLOCK, Guest, Refusal, seal, write};

/// Whether nothing wrong is found with a writer, all else being right.
fn write_passes(wrong: fn(&Guest, u32, &mut [u8]) -> Refusal) -> bool {
    passes(Side {
        write: wrong,
        ..REFERENCE
    })
}

/// Writes a block and changes it, its check made anew.
pub fn changed(
    guest: &Guest,
    place: u32,
    buffer: &mut [u8],
    change: impl Fn(&mut [u8]),
) -> Refusal {
    let refusal = write(guest, place, buffer);
    if refusal == Refusal::NONE {
        change(&mut buffer[..BLOCK]);
        seal(&mut buffer[..BLOCK]);
    }
    refusal
}

#[test]
fn kind_2_written_for_marks_past_the_tasks_alone() {
    assert!(!write_passes(|guest, place, buffer| {
        changed(guest, place, buffer, |block| {
            if guest.marks != 0 {
                put_short(block, 0, 2);
            }
        })
    }));
}

#[test]
fn marks_past_the_tasks_written() {
    assert!(!write_passes(|guest, place, buffer| {
        changed(guest, place, buffer, |block| {
            if short(block, 0) == 2 {
                put_short(block, 20, guest.marks);
            }
        })
    }));
}

#[test]
fn kind_2_written_always() {
    assert!(!write_passes(|guest, place, buffer| {
        changed(guest, place, buffer, |block| put_short(block, 0, 2))
    }));
}

#[test]
fn kind_1_written_with_marks() {
    assert!(!write_passes(|guest, place, buffer| {
        changed(guest, place, buffer, |block| put_short(block, 0, 1))
    }));
}

#[test]
fn marks_not_written() {
    assert!(!write_passes(|guest, place, buffer| {
        write(&Guest { marks: 0, ..*guest }, place, buffer)
    }));
}

#[test]
fn the_multiple_not_asked_by_the_writer() {
    assert!(!write_passes(|guest, place, buffer| {
        let right = write(guest, place, buffer);
        match right.number {
            6 => {
                let unmarked = Guest { marks: 0, ..*guest };
                write(&unmarked, place, buffer)
            }
            _ => right,
        }
    }));
}
