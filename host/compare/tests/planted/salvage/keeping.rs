//! Blocks kept or dropped wrongly, or by another reason than the first.

use super::{Block, by_numbers, is_right, passes, short, word};
use reference::plan::{BLOCK, LONGEST, seal};

/// Whether a block before has the same id, of those that are kept or dropped by numbers for which this holds.
fn seen_before(block: &Block, counts: impl Fn(u32) -> bool) -> bool {
    let earlier = block.before.chunks(BLOCK);
    let same_id = earlier.filter(|bytes| word(bytes, 4) == word(block.bytes, 4));
    let numbers = same_id.map(|bytes| is_right(bytes, &[]).err().unwrap_or(0));
    numbers.into_iter().any(counts)
}

/// The number by which a block is dropped once a part of it is made right, its check made anew.
fn once_right(block: &Block, part: impl Fn(&mut [u8])) -> u32 {
    let mut bytes = block.bytes.to_vec();
    part(&mut bytes);
    seal(&mut bytes);
    is_right(&bytes, block.kept).err().unwrap_or(0)
}

#[test]
fn ids_of_all_dropped_blocks_counted() {
    assert!(!passes(|file, out| by_numbers(file, out, |block| {
        match block.number == 0 && seen_before(block, |_| true) {
            true => 4,
            false => block.number,
        }
    })));
}

#[test]
fn ids_of_blocks_dropped_by_their_tasks_counted() {
    assert!(!passes(|file, out| by_numbers(file, out, |block| {
        match block.number == 0 && seen_before(block, |number| number == 6) {
            true => 4,
            false => block.number,
        }
    })));
}

#[test]
fn ids_seen_before_not_asked() {
    assert!(!passes(|file, out| by_numbers(file, out, |block| {
        is_right(block.bytes, &[]).err().unwrap_or(0)
    })));
}

#[test]
fn the_block_kept_just_before_asked_alone_for_its_id() {
    assert!(!passes(|file, out| by_numbers(file, out, |block| {
        let last = block.kept.last_chunk::<1>().map_or(&[][..], |last| last);
        is_right(block.bytes, last).err().unwrap_or(0)
    })));
}

#[test]
fn the_first_block_kept_asked_alone_for_its_id() {
    assert!(!passes(|file, out| by_numbers(file, out, |block| {
        let first = &block.kept[..block.kept.len().min(1)];
        is_right(block.bytes, first).err().unwrap_or(0)
    })));
}

#[test]
fn the_place_in_the_file_asked() {
    assert!(!passes(|file, out| by_numbers(file, out, |block| {
        let own = usize::from(short(block.bytes, 2)) == block.position();
        match block.number != 2 && !own {
            true => 3,
            false => block.number,
        }
    })));
}

#[test]
fn the_new_place_asked() {
    assert!(!passes(|file, out| by_numbers(file, out, |block| {
        let own = usize::from(short(block.bytes, 2)) == block.kept.len();
        match block.number != 2 && !own {
            true => 3,
            false => block.number,
        }
    })));
}

#[test]
fn a_place_above_7_asked() {
    assert!(!passes(|file, out| by_numbers(file, out, |block| {
        match block.number != 2 && short(block.bytes, 2) > 7 {
            true => 3,
            false => block.number,
        }
    })));
}

#[test]
fn all_blocks_behind_a_dropped_one_dropped() {
    assert!(!passes(|file, out| by_numbers(file, out, |block| {
        match block.number == 0 && block.kept.len() < block.position() {
            true => 3,
            false => block.number,
        }
    })));
}

#[test]
fn kind_2_dropped() {
    assert!(!passes(|file, out| by_numbers(file, out, |block| {
        match block.number == 0 && short(block.bytes, 0) == 2 {
            true => 3,
            false => block.number,
        }
    })));
}

#[test]
fn deferrable_guests_dropped() {
    assert!(!passes(|file, out| by_numbers(file, out, |block| {
        match block.number == 0 && block.bytes[22] == 1 {
            true => 5,
            false => block.number,
        }
    })));
}

#[test]
fn kind_2_without_a_need_kept() {
    assert!(!passes(|file, out| by_numbers(file, out, |block| {
        match block.number == 3 && short(block.bytes, 0) == 2 {
            true => once_right(block, |bytes| bytes[0] = 1),
            false => block.number,
        }
    })));
}

#[test]
fn blocks_whose_check_alone_is_wrong_kept() {
    assert!(!passes(|file, out| by_numbers(file, out, |block| {
        match block.number {
            2 => once_right(block, |_| ()),
            number => number,
        }
    })));
}

#[test]
fn the_kind_told_before_the_sum() {
    assert!(!passes(|file, out| by_numbers(file, out, |block| {
        match block.number == 2 && once_right(block, |_| ()) == 3 {
            true => 3,
            false => block.number,
        }
    })));
}

#[test]
fn a_byte_that_must_be_zero_told_before_the_head() {
    assert!(!passes(|file, out| by_numbers(file, out, |block| {
        let beside = block.bytes[23..32].iter().any(|byte| *byte != 0);
        match block.number == 4 && beside {
            true => 5,
            false => block.number,
        }
    })));
}

#[test]
fn a_run_told_before_a_byte_that_must_be_zero() {
    assert!(!passes(|file, out| by_numbers(file, out, |block| {
        let in_range = (1..=LONGEST).contains(&word(block.bytes, 32));
        match block.number == 5 && !in_range {
            true => 6,
            false => block.number,
        }
    })));
}

#[test]
fn an_id_seen_before_told_last() {
    assert!(!passes(|file, out| by_numbers(file, out, |block| {
        match block.number {
            4 => is_right(block.bytes, &[]).err().unwrap_or(4),
            number => number,
        }
    })));
}

#[test]
fn the_last_reason_told() {
    assert!(!passes(|file, out| by_numbers(file, out, |block| {
        match block.number {
            2 => once_right(block, |_| ()).max(2),
            3 => once_right(block, |bytes| bytes[..2].copy_from_slice(&[1, 0])).max(3),
            4 => once_right(block, |bytes| {
                bytes[4..16].copy_from_slice(&[77, 0, 0, 0, 1, 0, 0, 0, 1, 0, 0, 0]);
            })
            .max(4),
            number => number,
        }
    })));
}
