//! Wrong refusals of a plan with an amendment sheet: in another order, at another place, or laid to the other.

use super::{find_passes, id_at, id_of, of_plan, of_sheet, place_in};
use reference::amendment::{Located, find};
use reference::plan::{BLOCK, blocks_of};
use reference::samples::plan_a;

#[test]
fn places_of_the_sheet_judged_as_a_plans() {
    assert!(!find_passes(|plan, sheet, id| {
        let right = find(plan, sheet, id);
        let own = |(position, block): (u32, &[u8])| block[2..4] == position.to_le_bytes()[..2];
        match (0..).zip(sheet.chunks_exact(BLOCK)).find(|at| !own(*at)) {
            Some((position, _)) if [0, 7, 16].contains(&right.number) => of_sheet(3, position),
            _ => right,
        }
    }));
}

#[test]
fn ids_of_the_sheet_taken_as_seen_in_the_plan() {
    assert!(!find_passes(|plan, sheet, id| {
        let right = find(plan, sheet, id);
        let seen = |block: &[u8]| place_in(plan, id_of(block)).is_some();
        match sheet.chunks_exact(BLOCK).position(seen) {
            Some(position) if [0, 7, 16].contains(&right.number) => of_sheet(4, position as u32),
            _ => right,
        }
    }));
}

#[test]
fn a_guest_taken_twice_in_a_sheet() {
    assert!(!find_passes(|plan, sheet, id| {
        let right = find(plan, sheet, id);
        if right.number != 4 || right.sheet != 1 {
            return right;
        }
        let (before, from) = sheet.split_at(BLOCK * right.place as usize);
        let again = id_at(from, 0);
        match before
            .chunks(BLOCK)
            .any(|block| Some(id_of(block)) == again)
        {
            true => find(plan, &[before, &from[BLOCK..]].concat(), id),
            false => right,
        }
    }));
}

#[test]
fn the_sheet_refused_before_the_plan() {
    assert!(!find_passes(|plan, sheet, id| {
        let right = find(plan, sheet, id);
        let first = find(&blocks_of(&plan_a()), sheet, id);
        match (right, first) {
            (Located { sheet: 0, .. }, Located { sheet: 1, .. })
                if (1..=6).contains(&right.number) =>
            {
                first
            }
            _ => right,
        }
    }));
}

#[test]
fn the_guests_place_told_instead_of_the_position_that_is_refused() {
    assert!(!find_passes(|plan, sheet, id| {
        let right = find(plan, sheet, id);
        let guest = id_at(sheet, right.place).and_then(|id| place_in(plan, id));
        match (right.number, right.sheet) {
            (1.., 1) => of_sheet(right.number, guest.unwrap_or(right.place)),
            _ => right,
        }
    }));
}

#[test]
fn belonging_judged_block_by_block_with_the_rest() {
    assert!(!find_passes(|plan, sheet, id| {
        let right = find(plan, sheet, id);
        if right.sheet == 0 || !(2..=6).contains(&right.number) {
            return right;
        }
        let begins = (1..=right.place as usize).map(|count| &sheet[..BLOCK * count]);
        let mut earlier = begins.map(|begin| find(plan, begin, id));
        earlier.find(|one| one.number == 16).unwrap_or(right)
    }));
}

#[test]
fn no_such_guest_said_before_belonging() {
    assert!(!find_passes(|plan, sheet, id| {
        match find(plan, sheet, id) {
            Located { number: 16, .. } if place_in(plan, id).is_none() => of_plan(plan, id),
            right => right,
        }
    }));
}

#[test]
fn no_such_guest_laid_to_the_sheet() {
    assert!(!find_passes(|plan, sheet, id| {
        match find(plan, sheet, id) {
            Located { number: 7, .. } => of_sheet(7, 0),
            right => right,
        }
    }));
}

#[test]
fn a_refusal_of_the_sheet_laid_to_the_plan() {
    assert!(!find_passes(|plan, sheet, id| {
        let right = find(plan, sheet, id);
        match right.number {
            0 => right,
            _ => Located { sheet: 0, ..right },
        }
    }));
}

#[test]
fn an_empty_sheet_taken_as_no_amendment() {
    assert!(!find_passes(|plan, sheet, id| {
        match sheet.is_empty() {
            true => of_plan(plan, id),
            false => find(plan, sheet, id),
        }
    }));
}

#[test]
fn a_sheet_of_nine_blocks_taken_up_to_the_eighth() {
    assert!(!find_passes(|plan, sheet, id| {
        match sheet.len() / BLOCK {
            9 => find(plan, &sheet[..8 * BLOCK], id),
            _ => find(plan, sheet, id),
        }
    }));
}
