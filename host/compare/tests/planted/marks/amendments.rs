//! Wrong answers about amendments with marks, each of which the comparison of such pairs alone must find.

use super::{changed, put_short, short, unmarked};
use crate::amendments::{compared, id_of};
use compare::side::{REFERENCE, Side};
use reference::amendment::{self, Located, find, replaced};
use reference::plan::{BLOCK, Plan, read};
use reference::verdict::{self, Verdict};

/// Whether nothing wrong is found with a side.
fn passes(side: Side) -> bool {
    compared(side).found_nothing()
}

/// The amended plan, where the pair is not refused.
pub fn amended(plan: &[u8], sheet: &[u8]) -> Option<Plan> {
    replaced(plan, sheet).ok().map(|bytes| read(&bytes).plan)
}

#[test]
fn a_block_of_kind_2_refused_in_a_sheet() {
    assert!(!passes(Side {
        amended_find: |plan, sheet, id| {
            let right = find(plan, sheet, id);
            let marked = |block: &[u8]| short(block, 0) == 2;
            match sheet.chunks_exact(BLOCK).position(marked) {
                Some(position) if [0, 7, 16].contains(&right.number) => Located {
                    number: 3,
                    place: position as u32,
                    sheet: 1,
                },
                _ => right,
            }
        },
        ..REFERENCE
    }));
}

#[test]
fn a_block_of_kind_2_without_marks_accepted_in_a_sheet() {
    assert!(!passes(Side {
        amended_find: |plan, sheet, id| match find(plan, sheet, id) {
            Located {
                number: 3,
                sheet: 1,
                ..
            } => {
                let unmarked = changed(sheet, |block| {
                    if short(block, 0) == 2 && short(block, 20) == 0 {
                        put_short(block, 0, 1);
                    }
                });
                find(plan, &unmarked, id)
            }
            right => right,
        },
        ..REFERENCE
    }));
}

#[test]
fn the_multiple_not_asked_of_a_sheet() {
    assert!(!passes(Side {
        amended_find: |plan, sheet, id| match find(plan, sheet, id) {
            Located {
                number: 6,
                sheet: 1,
                ..
            } => {
                let unmarked = changed(sheet, |block| {
                    put_short(block, 0, 1);
                    put_short(block, 20, 0);
                });
                find(plan, &unmarked, id)
            }
            right => right,
        },
        ..REFERENCE
    }));
}

#[test]
fn a_verdict_of_a_pair_that_looks_at_no_mark() {
    assert!(!passes(Side {
        amended_task_verdict: |plan, sheet, id, task| match amended(plan, sheet) {
            Some(records) => verdict::task_verdict(&unmarked(&records), id, task),
            None => amendment::task_verdict(plan, sheet, id, task),
        },
        ..REFERENCE
    }));
}

#[test]
fn a_capacity_of_a_pair_that_looks_at_no_mark() {
    assert!(!passes(Side {
        amended_smallest_capacity: |plan, sheet, id| match amended(plan, sheet) {
            Some(records) => verdict::smallest_capacity(&unmarked(&records), id),
            None => amendment::smallest_capacity(plan, sheet, id),
        },
        ..REFERENCE
    }));
}

/// The amended plan with the marks as they stand, for a guest that the sheet has a block for.
fn with_standing_marks(plan: &[u8], sheet: &[u8]) -> Option<Plan> {
    let mut records = amended(plan, sheet)?;
    let standing = read(plan).plan;
    for (guest, old) in records.guests.iter_mut().zip(standing.guests) {
        if sheet
            .chunks_exact(BLOCK)
            .any(|block| id_of(block) == old.id)
        {
            guest.marks = old.marks;
        }
    }
    Some(records)
}

#[test]
fn the_plans_marks_kept_for_an_amended_guest() {
    assert!(!passes(Side {
        amended_task_verdict: |plan, sheet, id, task| {
            let right = amendment::task_verdict(plan, sheet, id, task);
            match with_standing_marks(plan, sheet) {
                Some(records) => match verdict::task_verdict(&records, id, task) {
                    Verdict { number: 6, .. } => right,
                    wrong => wrong,
                },
                None => right,
            }
        },
        ..REFERENCE
    }));
}
