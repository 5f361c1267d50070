//! Wrong verdicts and capacities of a plan with an amendment sheet.

use super::{compared, id_of, moved, place_in, with_blocks};
use compare::amendments::AS_REPLACED;
use compare::side::{REFERENCE, Side};
use reference::amendment::{self, replaced};
use reference::plan::{BLOCK, Plan, read};
use reference::verdict::{self, Verdict};

/// Whether nothing wrong is found with a side, and the pairs are told as the replaced plans are.
fn passes(side: Side) -> bool {
    let session = compared(side);
    let nothing = session.found_nothing();
    assert_eq!(nothing, session.held(AS_REPLACED), "only one way finds it");
    nothing
}

/// The records of the plan alone where the pair is not refused.
fn unamended(plan: &[u8], sheet: &[u8]) -> Option<Plan> {
    replaced(plan, sheet).is_ok().then(|| read(plan).plan)
}

#[test]
fn the_verdict_of_a_guest_of_the_unamended_plan() {
    assert!(!passes(Side {
        amended_guest_verdict: |plan, sheet, id| match unamended(plan, sheet) {
            Some(records) => verdict::guest_verdict(&records, id),
            None => amendment::guest_verdict(plan, sheet, id),
        },
        ..REFERENCE
    }));
}

#[test]
fn the_verdict_of_a_task_of_the_unamended_plan() {
    assert!(!passes(Side {
        amended_task_verdict: |plan, sheet, id, task| match unamended(plan, sheet) {
            Some(records) => verdict::task_verdict(&records, id, task),
            None => amendment::task_verdict(plan, sheet, id, task),
        },
        ..REFERENCE
    }));
}

#[test]
fn the_acceptance_of_the_unamended_plan() {
    assert!(!passes(Side {
        amended_accept: |plan, sheet| match unamended(plan, sheet) {
            Some(records) => verdict::accept(&records),
            None => amendment::accept(plan, sheet),
        },
        ..REFERENCE
    }));
}

#[test]
fn the_smallest_capacity_in_the_unamended_plan() {
    assert!(!passes(Side {
        amended_smallest_capacity: |plan, sheet, id| match unamended(plan, sheet) {
            Some(records) => verdict::smallest_capacity(&records, id),
            None => amendment::smallest_capacity(plan, sheet, id),
        },
        ..REFERENCE
    }));
}

/// A part of the sheet where the pair is not refused and something is left of it, else the whole sheet.
fn part(plan: &[u8], sheet: &[u8], wanted: impl Fn(u32) -> bool) -> Vec<u8> {
    let part = with_blocks(sheet, wanted);
    match replaced(plan, sheet).is_ok() && !part.is_empty() {
        true => part,
        false => sheet.to_vec(),
    }
}

#[test]
fn guests_above_left_as_they_stand() {
    assert!(!passes(Side {
        amended_guest_verdict: |plan, sheet, id| {
            let own = part(plan, sheet, |one| one == id);
            amendment::guest_verdict(plan, &own, id)
        },
        ..REFERENCE
    }));
}

#[test]
fn the_guest_itself_left_as_it_stands() {
    assert!(!passes(Side {
        amended_task_verdict: |plan, sheet, id, task| {
            let others = part(plan, sheet, |one| one != id);
            amendment::task_verdict(plan, &others, id, task)
        },
        ..REFERENCE
    }));
}

#[test]
fn the_last_block_of_the_sheet_left_out() {
    assert!(!passes(Side {
        amended_accept: |plan, sheet| {
            let last = sheet.chunks_exact(BLOCK).next_back().map(id_of);
            let others = part(plan, sheet, |one| Some(one) != last);
            amendment::accept(plan, &others)
        },
        ..REFERENCE
    }));
}

#[test]
fn blocks_put_in_the_order_they_come() {
    assert!(!passes(Side {
        amended_accept: |plan, sheet| {
            let Some(mut records) = unamended(plan, sheet) else {
                return amendment::accept(plan, sheet);
            };
            for (guest, block) in records.guests.iter_mut().zip(sheet.chunks_exact(BLOCK)) {
                let id = guest.id;
                *guest = read(&moved(block, 0)).plan.guests[0];
                guest.id = id;
            }
            verdict::accept(&records)
        },
        ..REFERENCE
    }));
}

#[test]
fn a_task_looked_for_among_those_of_the_plan() {
    assert!(!passes(Side {
        amended_task_verdict: |plan, sheet, id, task| {
            let right = amendment::task_verdict(plan, sheet, id, task);
            let standing = place_in(plan, id).map(|place| read(plan).plan.guests[place as usize]);
            match standing {
                Some(guest) if right.number == 0 && task > guest.tasks => Verdict {
                    number: 8,
                    ..Verdict::default()
                },
                _ => right,
            }
        },
        ..REFERENCE
    }));
}

#[test]
fn a_verdict_that_is_not_refused_by_16() {
    let wrong = Side {
        amended_accept: |plan, sheet| {
            let right = amendment::accept(plan, sheet);
            match right.number {
                16 => verdict::accept(&read(plan).plan),
                _ => right,
            }
        },
        ..REFERENCE
    };
    assert!(!compared(wrong).found_nothing());
}
