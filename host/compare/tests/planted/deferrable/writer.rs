//! Wrong answers of the writer, which writes Deferrable guests no more.

use super::passes;
use compare::side::{REFERENCE, Side};
use reference::plan::{BLOCK, Guest, Refusal, block_of, write};

/// The number that a Deferrable guest is refused by.
const DEFERRABLE: Refusal = Refusal::new(23, 0);

/// Whether nothing wrong is found with a writer, all else being right.
fn write_passes(wrong: fn(&Guest, u32, &mut [u8]) -> Refusal) -> bool {
    passes(Side {
        write: wrong,
        ..REFERENCE
    })
}

/// The guest with another number for its kind.
fn of_kind(guest: &Guest, deferrable: u32) -> Guest {
    Guest {
        deferrable,
        ..*guest
    }
}

/// The right refusal, but 23 of a Deferrable guest comes before this number.
fn before(guest: &Guest, place: u32, buffer: &mut [u8], number: u32) -> Refusal {
    let right = write(guest, place, buffer);
    match right.number == number && guest.is_deferrable() {
        true => DEFERRABLE,
        false => right,
    }
}

#[test]
fn a_deferrable_guest_written_as_before() {
    assert!(!write_passes(|guest, place, buffer| {
        match write(guest, place, buffer) {
            DEFERRABLE => {
                buffer[..BLOCK].copy_from_slice(&block_of(guest, place as u16));
                Refusal::NONE
            }
            right => right,
        }
    }));
}

#[test]
fn a_deferrable_guest_written_as_periodic() {
    assert!(!write_passes(|guest, place, buffer| {
        write(&of_kind(guest, 0), place, buffer)
    }));
}

#[test]
fn a_deferrable_guest_with_marks_written() {
    assert!(!write_passes(|guest, place, buffer| {
        match guest.marks_of_tasks() {
            0 => write(guest, place, buffer),
            _ => write(&of_kind(guest, 0), place, buffer),
        }
    }));
}

#[test]
fn the_number_1_refused_alone() {
    assert!(!write_passes(|guest, place, buffer| {
        let by_number_1 = of_kind(guest, u32::from(guest.deferrable == 1));
        write(&by_number_1, place, buffer)
    }));
}

#[test]
fn the_lowest_byte_of_the_number_looked_at_alone() {
    assert!(!write_passes(|guest, place, buffer| {
        write(&of_kind(guest, guest.deferrable & 255), place, buffer)
    }));
}

#[test]
fn a_periodic_guest_with_marks_refused() {
    assert!(!write_passes(|guest, place, buffer| {
        let kind = guest.deferrable | u32::from(guest.marks_of_tasks());
        write(&of_kind(guest, kind), place, buffer)
    }));
}

#[test]
fn refusal_23_before_the_tasks_numbers() {
    assert!(!write_passes(|guest, place, buffer| before(
        guest, place, buffer, 6
    )));
}

#[test]
fn refusal_23_before_the_head() {
    assert!(!write_passes(|guest, place, buffer| before(
        guest, place, buffer, 4
    )));
}

#[test]
fn refusal_23_before_the_place() {
    assert!(!write_passes(|guest, place, buffer| before(
        guest, place, buffer, 3
    )));
}

#[test]
fn refusal_23_before_the_buffers_length() {
    assert!(!write_passes(|guest, place, buffer| before(
        guest, place, buffer, 12
    )));
}

#[test]
fn refusal_23_with_the_place_handed_in() {
    assert!(!write_passes(|guest, place, buffer| {
        match write(guest, place, buffer) {
            DEFERRABLE => Refusal::new(23, place),
            right => right,
        }
    }));
}

#[test]
fn a_deferrable_guest_refused_by_the_number_of_byte_22() {
    assert!(!write_passes(|guest, place, buffer| {
        match write(guest, place, buffer) {
            DEFERRABLE => Refusal::new(5, place),
            right => right,
        }
    }));
}

#[test]
fn a_block_written_on_23() {
    assert!(!write_passes(|guest, place, buffer| {
        let right = write(guest, place, buffer);
        if right == DEFERRABLE {
            write(&of_kind(guest, 0), place, buffer);
        }
        right
    }));
}
