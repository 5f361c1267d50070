//! Wrong answers about a plan with an amendment sheet, each of which the comparison of such pairs alone must find.

#[path = "amendments/refusals.rs"]
mod refusals;
#[path = "amendments/verdicts.rs"]
mod verdicts;

use compare::amendments;
use compare::session::Session;
use compare::side::{REFERENCE, Side};
use reference::amendment::{Located, find};
use reference::plan::{self, BLOCK, Refusal, seal};

/// What small and some random pairs show of a side.
pub fn compared(side: Side) -> Session {
    let mut session = Session::new(side, 1);
    session.scans = true;
    amendments::compare(&mut session);
    for _ in 0..10 {
        amendments::round(&mut session);
    }
    session
}

/// Whether nothing wrong is found with a companion answer, all else being right.
fn find_passes(wrong: fn(&[u8], &[u8], u32) -> Located) -> bool {
    let side = Side {
        amended_find: wrong,
        ..REFERENCE
    };
    compared(side).found_nothing()
}

/// A refusal of the sheet.
fn of_sheet(number: u32, place: u32) -> Located {
    Located {
        number,
        place,
        sheet: 1,
    }
}

/// What the finder says of the plan alone.
fn of_plan(bytes: &[u8], id: u32) -> Located {
    let Refusal { number, place } = plan::find(bytes, id);
    Located {
        number,
        place,
        sheet: 0,
    }
}

/// The id that a block carries.
pub fn id_of(block: &[u8]) -> u32 {
    u32::from_le_bytes([block[4], block[5], block[6], block[7]])
}

/// The id at a position of the sheet.
fn id_at(sheet: &[u8], position: u32) -> Option<u32> {
    sheet.chunks_exact(BLOCK).nth(position as usize).map(id_of)
}

/// The place of a guest in a plan that is not refused.
fn place_in(bytes: &[u8], id: u32) -> Option<u32> {
    let found = plan::find(bytes, id);
    (found.number == 0).then_some(found.place)
}

/// The sheet with only those of its blocks whose id is as asked for.
fn with_blocks(sheet: &[u8], wanted: impl Fn(u32) -> bool) -> Vec<u8> {
    let blocks = sheet.chunks_exact(BLOCK);
    let kept: Vec<&[u8]> = blocks.filter(|block| wanted(id_of(block))).collect();
    kept.concat()
}

/// The block with another place and a right check.
fn moved(block: &[u8], place: u32) -> Vec<u8> {
    let mut moved = block.to_vec();
    moved[2..4].copy_from_slice(&(place as u16).to_le_bytes());
    seal(&mut moved);
    moved
}

#[test]
fn the_reference_is_right_about_pairs() {
    let session = compared(REFERENCE);
    assert!(session.found_nothing());
    assert!(session.held(amendments::AS_REPLACED));
}

#[test]
fn the_plans_block_handed_back_where_the_sheet_has_one() {
    assert!(!find_passes(|plan, sheet, id| {
        match find(plan, sheet, id) {
            Located { number: 0, .. } => of_plan(plan, id),
            refused => refused,
        }
    }));
}

#[test]
fn blocks_of_the_sheet_not_held_to_the_plans_ids() {
    assert!(!find_passes(|plan, sheet, id| {
        let known = with_blocks(sheet, |id| place_in(plan, id).is_some());
        match find(plan, sheet, id) {
            Located { number: 16, .. } if known.is_empty() => of_plan(plan, id),
            Located { number: 16, .. } => find(plan, &known, id),
            right => right,
        }
    }));
}

#[test]
fn blocks_of_the_sheet_not_held_to_their_guests_places() {
    assert!(!find_passes(|plan, sheet, id| {
        let right = find(plan, sheet, id);
        let blocks = sheet.chunks_exact(BLOCK);
        let home: Vec<Vec<u8>> = blocks
            .map(|block| match place_in(plan, id_of(block)) {
                Some(place) => moved(block, place),
                None => block.to_vec(),
            })
            .collect();
        match right.number {
            16 => find(plan, &home.concat(), id),
            _ => right,
        }
    }));
}

#[test]
fn the_guests_place_told_instead_of_the_position_in_the_sheet() {
    assert!(!find_passes(|plan, sheet, id| {
        let right = find(plan, sheet, id);
        match (right.number, right.sheet) {
            (0, 1) => of_sheet(0, place_in(plan, id).unwrap_or(right.place)),
            _ => right,
        }
    }));
}
