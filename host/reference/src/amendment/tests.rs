use super::*;
use crate::plan::{LONGEST_PLAN, blocks_of, seal};
use crate::samples::{deferrable, full, plan_a, plan_a_bound};
use crate::verdict::{NO, YES};

/// The block of a guest at a place of the standing plan.
fn block(guest: &Guest, place: u16) -> Vec<u8> {
    let mut block = blocks_of(&Plan::new(&[*guest]));
    block[2..4].copy_from_slice(&place.to_le_bytes());
    seal(&mut block);
    block
}

/// Guest 9 of plan A with another capacity.
fn guest_9(capacity: u32) -> Guest {
    Guest {
        capacity,
        ..plan_a().guests[1]
    }
}

/// Plan A's blocks.
fn standing() -> Vec<u8> {
    blocks_of(&plan_a())
}

/// A sheet for plan A: guest 9 with capacity 7, then guest 7 as it is.
fn both() -> Vec<u8> {
    [block(&guest_9(7), 1), block(&plan_a().guests[0], 0)].concat()
}

/// The companion answer of plan A with a sheet in which one byte is changed and the checks are made anew.
fn changed(at: usize, value: u8) -> Located {
    let mut sheet = both();
    sheet[at] = value;
    sheet.chunks_mut(BLOCK).for_each(seal);
    find(&standing(), &sheet, 9)
}

#[test]
fn case_5_tried_before_it_is_signed() {
    let (plan, sheet) = (standing(), block(&guest_9(7), 1));
    let response = |task| task_verdict(&plan, &sheet, 9, task).ticks;
    assert_eq!([response(1), response(2)], [38, 86]);
    assert_eq!(guest_verdict(&plan, &sheet, 9).ticks, 13);
    assert_eq!(accept(&plan, &sheet).verdict, YES);
    assert_eq!(accept(&plan, &block(&guest_9(6), 1)).verdict, NO);
    assert_eq!(smallest_capacity(&plan, &sheet, 9).ticks, 7);
}

#[test]
fn the_sheets_block_if_it_has_one_otherwise_the_plans() {
    let (plan, sheet) = (standing(), block(&guest_9(7), 1));
    assert_eq!(find(&plan, &sheet, 9), Located::in_sheet(0, 0));
    assert_eq!(found(&plan, &sheet, 9), &sheet[..]);
    assert_eq!(find(&plan, &sheet, 7), Located::in_plan(0, 0));
    assert_eq!(found(&plan, &sheet, 7), &plan[..BLOCK]);
    assert_eq!(find(&plan, &sheet, 8), Located::in_plan(7, 0));
    assert!(found(&plan, &sheet, 8).is_empty());
}

#[test]
fn blocks_come_in_any_order() {
    let (plan, sheet) = (standing(), both());
    assert_eq!(find(&plan, &sheet, 7), Located::in_sheet(0, 1));
    assert_eq!(found(&plan, &sheet, 7), &sheet[BLOCK..]);
    let expected = [&sheet[BLOCK..], &sheet[..BLOCK]].concat();
    assert_eq!(replaced(&plan, &sheet), Ok(expected));
}

#[test]
fn the_sheets_length_is_judged_as_a_plans() {
    for length in [0, 1, 511, 513, LONGEST_PLAN + BLOCK] {
        let refused = find(&standing(), &vec![0; length], 9);
        assert_eq!(refused, Located::in_sheet(1, 0));
    }
    let sheet: Vec<u8> = blocks_of(&full());
    assert_eq!(find(&sheet, &sheet, 8), Located::in_sheet(0, 7));
}

#[test]
fn each_refusal_of_the_sheet_behind_a_right_check() {
    assert_eq!(changed(BLOCK, 2), Located::in_sheet(3, 1));
    assert_eq!(changed(8, 0), Located::in_sheet(4, 0));
    assert_eq!(changed(BLOCK + 4, 9), Located::in_sheet(4, 1));
    assert_eq!(changed(BLOCK + 507, 1), Located::in_sheet(5, 1));
    assert_eq!(changed(32, 0), Located::in_sheet(6, 0));
    assert_eq!(changed(4, 8), Located::in_sheet(16, 0));
    assert_eq!(changed(BLOCK + 2, 1), Located::in_sheet(16, 1));
    assert_eq!(changed(2, 2), Located::in_sheet(16, 0));
    assert_eq!(changed(BLOCK + 3, 1), Located::in_sheet(16, 1));
}

#[test]
fn the_plans_refusals_come_first_then_the_sheets_then_16_then_7() {
    let (mut plan, mut sheet) = (standing(), both());
    sheet[2] = 0;
    seal(&mut sheet[..BLOCK]);
    assert_eq!(find(&plan, &sheet, 8), Located::in_sheet(16, 0));
    sheet[BLOCK] = 0;
    assert_eq!(find(&plan, &sheet, 8), Located::in_sheet(2, 1));
    assert_eq!(find(&plan, &[], 8), Located::in_sheet(1, 0));
    plan[BLOCK] = 2;
    assert_eq!(find(&plan, &sheet, 8), Located::in_plan(2, 1));
    assert_eq!(find(&plan[..9], &sheet, 8), Located::in_plan(1, 0));
}

#[test]
fn a_verdict_has_the_pairs_refusals_then_7_8_and_11() {
    let (plan, sheet) = (standing(), both());
    let refused = |verdict: Verdict| Refusal::new(verdict.number, verdict.place);
    assert_eq!(refused(accept(&plan, &sheet[1..])), Refusal::new(1, 0));
    let twice = [&sheet[BLOCK..], &sheet[BLOCK..]].concat();
    assert_eq!(refused(accept(&plan, &twice)), Refusal::new(4, 1));
    assert_eq!(
        refused(task_verdict(&plan, &sheet, 8, 9)),
        Refusal::new(7, 0)
    );
    assert_eq!(
        refused(task_verdict(&plan, &sheet, 9, 3)),
        Refusal::new(8, 0)
    );
    let tight = Guest::new(9, 1, 6, &[[4, 6, 6]]);
    let none = smallest_capacity(&plan, &block(&tight, 1), 9);
    assert_eq!(refused(none), Refusal::new(11, 0));
}

#[test]
fn kinds_of_a_plan_and_a_sheet_are_mixed() {
    let bound = plan_a_bound(3).guests[1];
    let (unmarked, marked) = (standing(), block(&bound, 1));
    let responses =
        |plan: &[u8], sheet: &[u8]| [1, 2].map(|task| task_verdict(plan, sheet, 9, task).ticks);
    assert_eq!(responses(&unmarked, &marked), [24, 44]);
    let amended = replaced(&unmarked, &marked);
    assert_eq!(amended, Ok(blocks_of(&plan_a_bound(3))));
    let back = block(&guest_9(8), 1);
    assert_eq!(responses(&blocks_of(&plan_a_bound(3)), &back), [36, 80]);
    let refused = |at: usize, value: u8| {
        let mut sheet = marked.clone();
        sheet[at] = value;
        seal(&mut sheet);
        find(&unmarked, &sheet, 9)
    };
    assert_eq!(refused(20, 0), Located::in_sheet(3, 0));
    assert_eq!(refused(20, 4), Located::in_sheet(5, 0));
    assert_eq!(refused(36, 61), Located::in_sheet(6, 0));
    assert_eq!(refused(0, 1), Located::in_sheet(5, 0));
}

#[test]
fn a_sheet_makes_guests_deferrable_and_periodic_again() {
    let whole = blocks_of(&deferrable(plan_a()));
    let responses = |plan: &[u8], sheet: &[u8]| {
        let tasks = [1, 2].map(|task| task_verdict(plan, sheet, 9, task).ticks);
        [guest_verdict(plan, sheet, 9).ticks, tasks[0], tasks[1]]
    };
    assert_eq!(responses(&standing(), &whole[..BLOCK]), [16, 38, 82]);
    assert_eq!(responses(&standing(), &whole[BLOCK..]), [14, 36, 80]);
    assert_eq!(responses(&whole, &standing()[..BLOCK]), [14, 36, 80]);
    assert_eq!(responses(&whole, &standing()[BLOCK..]), [16, 38, 82]);
    assert_eq!(replaced(&standing(), &whole), Ok(whole.clone()));
    let refused = |bytes: &[(usize, u8)]| {
        let mut sheet = whole[BLOCK..].to_vec();
        bytes.iter().for_each(|(at, value)| sheet[*at] = *value);
        seal(&mut sheet);
        find(&standing(), &sheet, 9)
    };
    assert_eq!(refused(&[]), Located::in_sheet(0, 0));
    assert_eq!(refused(&[(22, 0)]), Located::in_sheet(3, 0));
    assert_eq!(refused(&[(22, 2)]), Located::in_sheet(3, 0));
    assert_eq!(refused(&[(22, 2), (20, 2)]), Located::in_sheet(5, 0));
    assert_eq!(refused(&[(23, 7)]), Located::in_sheet(5, 0));
}
