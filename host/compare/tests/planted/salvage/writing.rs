//! Kept blocks written wrongly.

use super::{Block, by_bytes, moved, passes, short};
use reference::plan::{BLOCK, seal};

/// The kept block with something in it changed behind its check's back, which is then made anew.
fn changed(block: &Block, place: u16, change: impl Fn(&mut [u8])) -> Vec<u8> {
    let mut bytes = moved(block.bytes, place);
    change(&mut bytes);
    seal(&mut bytes);
    bytes
}

#[test]
fn the_old_place_kept() {
    assert!(!passes(|file, out| by_bytes(file, out, |block, _| {
        block.bytes.to_vec()
    })));
}

#[test]
fn the_place_in_the_file_written() {
    assert!(!passes(|file, out| by_bytes(file, out, |block, _| {
        moved(block.bytes, block.position() as u16)
    })));
}

#[test]
fn places_written_from_1() {
    assert!(!passes(|file, out| by_bytes(file, out, |block, place| {
        moved(block.bytes, place + 1)
    })));
}

#[test]
fn the_check_not_written_anew() {
    assert!(!passes(|file, out| by_bytes(file, out, |block, place| {
        let mut bytes = moved(block.bytes, place);
        bytes[508..].copy_from_slice(&block.bytes[508..]);
        bytes
    })));
}

#[test]
fn the_check_written_without_the_place() {
    assert!(!passes(|file, out| by_bytes(file, out, |block, place| {
        let mut bytes = moved(block.bytes, 0);
        bytes[2..4].copy_from_slice(&place.to_le_bytes());
        bytes
    })));
}

#[test]
fn the_check_written_before_the_place() {
    assert!(!passes(|file, out| by_bytes(file, out, |block, place| {
        let mut bytes = block.bytes.to_vec();
        seal(&mut bytes);
        bytes[2..4].copy_from_slice(&place.to_le_bytes());
        bytes
    })));
}

#[test]
fn one_byte_of_the_place_written() {
    assert!(!passes(|file, out| by_bytes(file, out, |block, place| {
        let high = block.bytes[3];
        changed(block, place, |bytes| bytes[3] = high)
    })));
}

#[test]
fn a_place_that_is_in_its_range_left() {
    assert!(!passes(|file, out| by_bytes(file, out, |block, place| {
        match short(block.bytes, 2) {
            carried @ 0..8 => moved(block.bytes, carried),
            _ => moved(block.bytes, place),
        }
    })));
}

#[test]
fn byte_22_cleared() {
    assert!(!passes(|file, out| by_bytes(file, out, |block, place| {
        changed(block, place, |bytes| bytes[22] = 0)
    })));
}

#[test]
fn byte_22_cleared_beside_marks() {
    assert!(!passes(|file, out| by_bytes(file, out, |block, place| {
        changed(block, place, |bytes| {
            if short(bytes, 20) != 0 {
                bytes[22] = 0;
            }
        })
    })));
}

#[test]
fn deferrable_guests_made_periodic() {
    assert!(!passes(|file, out| by_bytes(file, out, |block, place| {
        changed(block, place, |bytes| {
            bytes[22] = 0;
            bytes[0] = if short(bytes, 20) == 0 { 1 } else { 2 };
        })
    })));
}

#[test]
fn marks_cleared() {
    assert!(!passes(|file, out| by_bytes(file, out, |block, place| {
        changed(block, place, |bytes| {
            if bytes[22] == 1 {
                bytes[20..22].fill(0);
            }
        })
    })));
}

#[test]
fn the_charge_cleared() {
    assert!(!passes(|file, out| by_bytes(file, out, |block, place| {
        changed(block, place, |bytes| bytes[18..20].fill(0))
    })));
}

#[test]
fn ids_counted_anew() {
    assert!(!passes(|file, out| by_bytes(file, out, |block, place| {
        changed(block, place, |bytes| bytes[4] = place as u8 + 1)
    })));
}

#[test]
fn the_last_task_lost() {
    assert!(!passes(|file, out| by_bytes(file, out, |block, place| {
        changed(block, place, |bytes| bytes[212..224].fill(0))
    })));
}

#[test]
fn the_first_kept_block_written_each_time() {
    assert!(!passes(|file, out| by_bytes(file, out, |block, place| {
        let first = block.before.chunks(BLOCK).find(|bytes| {
            let id = block.kept.first().map(|guest| guest.id.to_le_bytes());
            id.is_some_and(|id| bytes[4..8] == id)
        });
        moved(first.unwrap_or(block.bytes), place)
    })));
}
