//! Old plans, which are still read and analysed, refused: alone, with an amendment sheet, and with a log, where the
//! comparison of pairs and that of logs find it.

use super::passes;
use crate::amendments;
use crate::marks::blocks::refused;
use compare::side::{REFERENCE, Side};
use compare::{session::Session, statements};
use reference::amendment::{Located, find as find_amended};
use reference::plan::{BLOCK, Plan, Refusal, check, find, read};
use reference::statement::{Stated, state};
use reference::verdict::{Verdict, accept, guest_verdict, smallest_capacity, task_verdict};

/// The place of the first block of a Deferrable guest.
fn old_block(bytes: &[u8]) -> Option<u32> {
    let mut blocks = bytes.chunks_exact(BLOCK);
    blocks.position(|block| block[22] == 1).map(|at| at as u32)
}

/// Whether a plan that is well formed has a Deferrable guest.
fn is_old(plan: &Plan) -> bool {
    check(plan) == Refusal::NONE && plan.has_deferrable()
}

/// A verdict of a plan that is not old, which alone is judged.
fn unless_old(plan: &Plan, right: Verdict) -> Verdict {
    match is_old(plan) {
        true => Verdict {
            number: 23,
            ..Verdict::default()
        },
        false => right,
    }
}

#[test]
fn an_old_plan_not_read() {
    assert!(!passes(Side {
        read: |bytes| match (old_block(bytes), read(bytes)) {
            (Some(place), right) if right.refusal == Refusal::NONE => refused(5, place),
            (_, right) => right,
        },
        ..REFERENCE
    }));
}

#[test]
fn an_old_plan_read_as_one_to_be_written() {
    assert!(!passes(Side {
        read: |bytes| match read(bytes) {
            right if right.plan.has_deferrable() => refused(23, 0),
            right => right,
        },
        ..REFERENCE
    }));
}

#[test]
fn a_guest_of_an_old_plan_not_found() {
    assert!(!passes(Side {
        find: |bytes, id| match (old_block(bytes), find(bytes, id)) {
            (Some(place), Refusal { number: 0 | 7, .. }) => Refusal::new(5, place),
            (_, right) => right,
        },
        ..REFERENCE
    }));
}

#[test]
fn old_records_refused() {
    assert!(!passes(Side {
        check: |plan| match is_old(plan) {
            true => Refusal::new(23, 0),
            false => check(plan),
        },
        ..REFERENCE
    }));
}

#[test]
fn records_with_another_number_than_0_and_1_refused() {
    assert!(!passes(Side {
        check: |plan| match plan.guests.iter().any(|guest| guest.deferrable > 1) {
            true if is_old(plan) => Refusal::new(4, 0),
            _ => check(plan),
        },
        ..REFERENCE
    }));
}

#[test]
fn old_guests_and_tasks_not_judged() {
    assert!(!passes(Side {
        guest_verdict: |plan, id| unless_old(plan, guest_verdict(plan, id)),
        ..REFERENCE
    }));
    assert!(!passes(Side {
        task_verdict: |plan, id, task| unless_old(plan, task_verdict(plan, id, task)),
        ..REFERENCE
    }));
}

#[test]
fn an_old_plan_not_accepted_or_not() {
    assert!(!passes(Side {
        accept: |plan| unless_old(plan, accept(plan)),
        ..REFERENCE
    }));
}

#[test]
fn a_capacity_in_an_old_plan_not_searched_for() {
    assert!(!passes(Side {
        smallest_capacity: |plan, id| unless_old(plan, smallest_capacity(plan, id)),
        ..REFERENCE
    }));
}

/// Whether nothing wrong is found with a companion answer of pairs, all else being right.
fn pair_passes(wrong: fn(&[u8], &[u8], u32) -> Located) -> bool {
    let side = Side {
        amended_find: wrong,
        ..REFERENCE
    };
    amendments::compared(side).found_nothing()
}

/// The companion answer where the pair is right, but a block of the lent part at this place is refused.
fn refused_of_pair(right: Located, place: Option<u32>, sheet: u32) -> Located {
    match place {
        Some(place) if [0, 7].contains(&right.number) => Located {
            number: 5,
            place,
            sheet,
        },
        _ => right,
    }
}

#[test]
fn an_old_plan_not_amended() {
    assert!(!pair_passes(|plan, sheet, id| {
        refused_of_pair(find_amended(plan, sheet, id), old_block(plan), 0)
    }));
}

#[test]
fn an_old_block_refused_in_a_sheet() {
    assert!(!pair_passes(|plan, sheet, id| {
        refused_of_pair(find_amended(plan, sheet, id), old_block(sheet), 1)
    }));
}

#[test]
fn an_old_plan_not_stated() {
    let mut session = Session::new(
        Side {
            statement: |running, plan, log| match (old_block(plan), state(running, plan, log)) {
                (Some(place), right) if right.refusal == Refusal::NONE => Stated {
                    refusal: Refusal::new(5, place),
                    statement: *running,
                    passed: 0,
                    position: 0,
                    number: 0,
                },
                (_, right) => right,
            },
            ..REFERENCE
        },
        1,
    );
    statements::round(&mut session);
    assert!(!session.found_nothing());
}
