//! Wrong answers about amendments with Deferrable guests, each of which the comparison of such pairs alone must find.

use super::periodic;
use crate::amendments::{compared, id_of};
use crate::marks::amendments::amended;
use crate::marks::{changed, short};
use compare::side::{REFERENCE, Side};
use reference::amendment::{self, Located, find};
use reference::plan::{BLOCK, Plan, read};
use reference::verdict::{Verdict, guest_verdict, smallest_capacity, task_verdict};

/// Whether nothing wrong is found with a side.
fn passes(side: Side) -> bool {
    compared(side).found_nothing()
}

/// The companion answer with the sheet changed where it is refused by this number.
fn let_through(plan: &[u8], sheet: &[u8], id: u32, number: u32, change: fn(&mut [u8])) -> Located {
    let right = find(plan, sheet, id);
    match right.number == number && right.sheet == 1 {
        true => find(plan, &changed(sheet, change), id),
        false => right,
    }
}

#[test]
fn byte_22_of_2_accepted_in_a_sheet() {
    assert!(!passes(Side {
        amended_find: |plan, sheet, id| {
            let_through(plan, sheet, id, 5, |block| block[22] = block[22].min(1))
        },
        ..REFERENCE
    }));
}

#[test]
fn kind_2_of_a_periodic_guest_without_a_mark_accepted_in_a_sheet() {
    assert!(!passes(Side {
        amended_find: |plan, sheet, id| {
            let_through(plan, sheet, id, 3, |block| {
                if short(block, 20) == 0 && block[22] == 0 {
                    block[0] = 1;
                }
            })
        },
        ..REFERENCE
    }));
}

#[test]
fn a_deferrable_guest_without_a_mark_refused_in_a_sheet() {
    assert!(!passes(Side {
        amended_find: |plan, sheet, id| {
            let right = find(plan, sheet, id);
            let unmarked = |block: &[u8]| short(block, 0) == 2 && short(block, 20) == 0;
            match sheet.chunks_exact(BLOCK).position(unmarked) {
                Some(position) if [0, 7, 16].contains(&right.number) => Located {
                    number: 3,
                    place: position as u32,
                    sheet: 1,
                },
                _ => right,
            }
        },
        ..REFERENCE
    }));
}

#[test]
fn verdicts_of_a_pair_that_look_at_no_kind() {
    assert!(!passes(Side {
        amended_guest_verdict: |plan, sheet, id| match amended(plan, sheet) {
            Some(records) => guest_verdict(&periodic(&records), id),
            None => amendment::guest_verdict(plan, sheet, id),
        },
        ..REFERENCE
    }));
    assert!(!passes(Side {
        amended_task_verdict: |plan, sheet, id, task| match amended(plan, sheet) {
            Some(records) => task_verdict(&periodic(&records), id, task),
            None => amendment::task_verdict(plan, sheet, id, task),
        },
        ..REFERENCE
    }));
}

#[test]
fn a_capacity_of_a_pair_that_looks_at_no_kind() {
    assert!(!passes(Side {
        amended_smallest_capacity: |plan, sheet, id| match amended(plan, sheet) {
            Some(records) => smallest_capacity(&periodic(&records), id),
            None => amendment::smallest_capacity(plan, sheet, id),
        },
        ..REFERENCE
    }));
}

/// The amended plan with the kinds as they stand, for guests that the sheet has a block for.
fn with_standing_kinds(plan: &[u8], sheet: &[u8]) -> Option<Plan> {
    let mut records = amended(plan, sheet)?;
    let standing = read(plan).plan;
    let amends = |id: u32| sheet.chunks_exact(BLOCK).any(|block| id_of(block) == id);
    for (guest, old) in records.guests.iter_mut().zip(standing.guests) {
        if amends(old.id) {
            guest.deferrable = old.deferrable;
        }
    }
    Some(records)
}

#[test]
fn the_plans_kind_kept_for_an_amended_guest() {
    fn kept(plan: &[u8], sheet: &[u8], id: u32) -> Verdict {
        match with_standing_kinds(plan, sheet) {
            Some(records) => guest_verdict(&records, id),
            None => amendment::guest_verdict(plan, sheet, id),
        }
    }
    assert!(!passes(Side {
        amended_guest_verdict: kept,
        ..REFERENCE
    }));
}
