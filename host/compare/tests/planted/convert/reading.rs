//! Plans converted that are refused by the reading order: what is wrong with a block is passed over, or put right.

use super::{converted, passes};
use crate::marks::{changed, put_short, short};
use reference::plan::{BLOCK, Guest, Refusal, read, seal};

/// The conversion of the plan with something put right in each block, where the reading order refuses by this number.
fn let_through(plan: &[u8], out: &mut [u8], number: u32, change: impl Fn(&mut [u8])) -> Refusal {
    match read(plan).refusal.number == number {
        true => converted(&changed(plan, change), out),
        false => converted(plan, out),
    }
}

#[test]
fn the_sum_not_asked() {
    assert!(!passes(|plan, out| match read(plan).refusal.number {
        2 => {
            let mut sealed = plan.to_vec();
            sealed.chunks_mut(BLOCK).for_each(seal);
            converted(&sealed, out)
        }
        _ => converted(plan, out),
    }));
}

#[test]
fn kind_2_of_a_periodic_guest_without_marks_converted() {
    assert!(!passes(|plan, out| let_through(plan, out, 3, |block| {
        if short(block, 0) == 2 && short(block, 20) == 0 && block[22] == 0 {
            put_short(block, 0, 1);
        }
    })));
}

#[test]
fn the_place_not_asked() {
    assert!(!passes(|plan, out| match read(plan).refusal.number {
        3 => {
            let mut placed = plan.to_vec();
            for (place, block) in placed.chunks_mut(BLOCK).enumerate() {
                put_short(block, 2, place as u16);
                seal(block);
            }
            converted(&placed, out)
        }
        _ => converted(plan, out),
    }));
}

#[test]
fn ids_seen_before_not_asked() {
    assert!(!passes(|plan, out| {
        let right = converted(plan, out);
        if right.number != 4 {
            return right;
        }
        let mut others = plan.to_vec();
        for (at, block) in (100..).zip(others.chunks_mut(BLOCK)) {
            if block[4..8] != [0; 4] {
                block[4..8].copy_from_slice(&u32::to_le_bytes(at));
            }
            seal(block);
        }
        converted(&others, out)
    }));
}

#[test]
fn another_value_of_byte_22_converted() {
    assert!(!passes(|plan, out| let_through(plan, out, 5, |block| {
        if short(block, 0) == 2 {
            block[22] = block[22].min(1);
        }
    })));
}

#[test]
fn another_value_of_byte_22_converted_without_a_mark() {
    assert!(!passes(|plan, out| let_through(plan, out, 3, |block| {
        if short(block, 0) == 2 {
            block[22] = block[22].min(1);
        }
    })));
}

#[test]
fn kind_1_with_a_1_in_byte_22_converted() {
    assert!(!passes(|plan, out| let_through(plan, out, 5, |block| {
        if short(block, 0) == 1 {
            block[22] = 0;
        }
    })));
}

#[test]
fn bytes_behind_byte_22_cleared() {
    assert!(!passes(|plan, out| let_through(plan, out, 5, |block| {
        block[23..32].fill(0);
    })));
}

#[test]
fn marks_past_the_tasks_cleared() {
    assert!(!passes(|plan, out| let_through(plan, out, 5, |block| {
        let tasks = u32::from(short(block, 16));
        let guest = Guest {
            tasks: tasks.min(16),
            marks: short(block, 20),
            ..Guest::default()
        };
        if short(block, 0) == 2 {
            put_short(block, 20, guest.marks_of_tasks());
        }
    })));
}

#[test]
fn a_bound_tasks_period_not_asked_to_be_a_multiple() {
    assert!(!passes(|plan, out| let_through(plan, out, 6, |block| {
        put_short(block, 0, 1);
        put_short(block, 20, 0);
        block[22] = 0;
    })));
}

#[test]
fn blocks_of_periodic_guests_not_read() {
    assert!(!passes(|plan, out| {
        let right = converted(plan, out);
        let block = plan.chunks_exact(BLOCK).nth(right.place as usize);
        let fits = out.len() >= plan.len() && (2..=6).contains(&right.number);
        match block.filter(|block| fits && block[22] == 0) {
            Some(_) => {
                out[..plan.len()].copy_from_slice(plan);
                Refusal::NONE
            }
            None => right,
        }
    }));
}
