//! Blocks converted wrongly, or not, or though they should not be.

use super::{and, converted, is_old, passes};
use crate::marks::{put_short, short};
use reference::plan::{BLOCK, Refusal, blocks_of, read, seal};

/// The right conversion with the blocks of Deferrable guests changed behind it, and their checks made anew.
fn changed(plan: &[u8], out: &mut [u8], change: impl Fn(&mut [u8])) -> Refusal {
    and(plan, out, |old, new| {
        if is_old(old) {
            change(new);
            seal(new);
        }
    })
}

/// The right conversion, but some blocks of Deferrable guests, told with their positions, stay as they were.
fn but_not(plan: &[u8], out: &mut [u8], stays: impl Fn(usize, &[u8]) -> bool) -> Refusal {
    let refusal = converted(plan, out);
    if refusal == Refusal::NONE {
        let blocks = plan.chunks(BLOCK).zip(out.chunks_mut(BLOCK));
        for (at, (old, new)) in blocks.enumerate() {
            if stays(at, old) {
                new.copy_from_slice(old);
            }
        }
    }
    refusal
}

#[test]
fn kind_2_left_without_marks() {
    assert!(!passes(|plan, out| changed(plan, out, |block| {
        put_short(block, 0, 2);
    })));
}

#[test]
fn byte_22_kept() {
    assert!(!passes(|plan, out| changed(plan, out, |block| {
        block[22] = 1;
    })));
}

#[test]
fn byte_22_kept_beside_marks() {
    assert!(!passes(|plan, out| changed(plan, out, |block| {
        block[22] = u8::from(short(block, 20) != 0);
    })));
}

#[test]
fn the_check_not_written_anew() {
    assert!(!passes(|plan, out| and(plan, out, |old, new| {
        new[508..].copy_from_slice(&old[508..]);
    })));
}

#[test]
fn the_check_written_before_the_kind() {
    assert!(!passes(|plan, out| and(plan, out, |old, new| {
        let kind = short(new, 0);
        if is_old(old) {
            put_short(new, 0, 2);
            seal(new);
            put_short(new, 0, kind);
        }
    })));
}

#[test]
fn marks_cleared() {
    assert!(!passes(|plan, out| changed(plan, out, |block| {
        put_short(block, 0, 1);
        put_short(block, 20, 0);
    })));
}

#[test]
fn the_high_byte_of_the_marks_cleared() {
    assert!(!passes(|plan, out| changed(plan, out, |block| {
        if block[20] != 0 {
            block[21] = 0;
        }
    })));
}

#[test]
fn kind_1_with_marks() {
    assert!(!passes(|plan, out| changed(plan, out, |block| {
        put_short(block, 0, 1);
    })));
}

#[test]
fn the_low_byte_of_the_marks_looked_at_alone() {
    assert!(!passes(|plan, out| changed(plan, out, |block| {
        let kind = if block[20] == 0 { 1 } else { 2 };
        put_short(block, 0, kind);
    })));
}

#[test]
fn nothing_converted() {
    assert!(!passes(|plan, out| but_not(plan, out, |_, _| true)));
}

#[test]
fn the_first_block_converted_alone() {
    assert!(!passes(|plan, out| but_not(plan, out, |at, _| at > 0)));
}

#[test]
fn the_eighth_block_not_converted() {
    assert!(!passes(|plan, out| but_not(plan, out, |at, _| at == 7)));
}

#[test]
fn blocks_with_marks_not_converted() {
    assert!(!passes(|plan, out| but_not(plan, out, |_, block| {
        short(block, 20) != 0
    })));
}

#[test]
fn blocks_without_marks_not_converted() {
    assert!(!passes(|plan, out| but_not(plan, out, |_, block| {
        short(block, 20) == 0
    })));
}

#[test]
fn marks_of_periodic_guests_cleared() {
    assert!(!passes(|plan, out| and(plan, out, |old, new| {
        if !is_old(old) {
            put_short(new, 0, 1);
            put_short(new, 20, 0);
            seal(new);
        }
    })));
}

#[test]
fn kind_2_of_periodic_guests_made_kind_1() {
    assert!(!passes(|plan, out| and(plan, out, |old, new| {
        if !is_old(old) {
            put_short(new, 0, 1);
            seal(new);
        }
    })));
}

#[test]
fn periodic_guests_made_deferrable() {
    assert!(!passes(|plan, out| and(plan, out, |old, new| {
        if !is_old(old) {
            put_short(new, 0, 2);
            new[22] = 1;
            seal(new);
        }
    })));
}

#[test]
fn the_jitter_made_up_for_by_capacity() {
    assert!(!passes(|plan, out| changed(plan, out, |block| {
        block.copy_within(12..16, 8);
    })));
}

#[test]
fn the_charge_cleared() {
    assert!(!passes(|plan, out| changed(plan, out, |block| {
        put_short(block, 18, 0);
    })));
}

#[test]
fn places_written_from_1() {
    assert!(!passes(|plan, out| changed(plan, out, |block| {
        let place = short(block, 2) + 1;
        put_short(block, 2, place);
    })));
}

#[test]
fn the_plan_written_with_its_guests_as_read() {
    assert!(!passes(|plan, out| {
        let refusal = converted(plan, out);
        if refusal == Refusal::NONE {
            out[..plan.len()].copy_from_slice(&blocks_of(&read(plan).plan));
        }
        refusal
    }));
}
