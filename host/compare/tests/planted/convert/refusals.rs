//! Refusals in another order than the converter's, without their places, or of plans that are right.

use super::{converted, has_old, passes};
use reference::plan::{BLOCK, LONGEST_PLAN, Refusal};

/// The right refusal, but 12 comes before each of these numbers.
fn before(plan: &[u8], out: &mut [u8], numbers: &[u32]) -> Refusal {
    let right = converted(plan, out);
    match out.len() < plan.len() && numbers.contains(&right.number) {
        true => Refusal::new(12, 0),
        false => right,
    }
}

/// The right conversion with another refusal given for one.
fn given(plan: &[u8], out: &mut [u8], other: impl Fn(Refusal) -> Refusal) -> Refusal {
    match converted(plan, out) {
        Refusal::NONE => Refusal::NONE,
        refusal => other(refusal),
    }
}

#[test]
fn the_output_asked_for_before_the_reading_order() {
    assert!(!passes(|plan, out| before(plan, out, &[1, 2, 3, 4, 5, 6])));
}

#[test]
fn the_output_asked_for_before_the_length() {
    assert!(!passes(|plan, out| before(plan, out, &[1])));
}

#[test]
fn the_output_asked_for_behind_the_length() {
    assert!(!passes(|plan, out| before(plan, out, &[2, 3, 4, 5, 6])));
}

#[test]
fn the_output_asked_for_block_by_block() {
    assert!(!passes(|plan, out| {
        let right = converted(plan, out);
        let room = out.len() / BLOCK;
        match (2..=6).contains(&right.number) && (right.place as usize) >= room {
            true => Refusal::new(12, 0),
            false => right,
        }
    }));
}

#[test]
fn the_place_of_the_refused_block_lost() {
    assert!(!passes(|plan, out| given(plan, out, |refusal| {
        Refusal::new(refusal.number, 0)
    })));
}

#[test]
fn places_of_refused_blocks_told_from_1() {
    assert!(!passes(|plan, out| given(plan, out, |refusal| {
        let more = u32::from((2..=6).contains(&refusal.number));
        Refusal::new(refusal.number, refusal.place + more)
    })));
}

#[test]
fn a_place_told_with_12() {
    assert!(!passes(|plan, out| {
        let room = (out.len() / BLOCK) as u32;
        given(plan, out, |refusal| match refusal.number {
            12 => Refusal::new(12, room),
            _ => refusal,
        })
    }));
}

#[test]
fn the_salvages_number_given_for_a_refused_block() {
    assert!(!passes(|plan, out| given(plan, out, |refusal| {
        match refusal.number {
            2..=6 => Refusal::new(20, 0),
            _ => refusal,
        }
    })));
}

#[test]
fn a_plan_without_deferrable_guests_refused() {
    assert!(!passes(|plan, out| {
        let right = converted(plan, &mut out.to_vec());
        match right == Refusal::NONE && !has_old(plan) {
            true => Refusal::new(21, 0),
            false => converted(plan, out),
        }
    }));
}

#[test]
fn an_old_plan_refused() {
    assert!(!passes(|plan, out| {
        let right = converted(plan, &mut out.to_vec());
        match right == Refusal::NONE && has_old(plan) {
            true => Refusal::new(23, 0),
            false => converted(plan, out),
        }
    }));
}

#[test]
fn a_plan_of_eight_guests_refused() {
    assert!(!passes(|plan, out| match plan.len() {
        LONGEST_PLAN if converted(plan, &mut []).number == 12 => Refusal::new(1, 0),
        _ => converted(plan, out),
    }));
}

#[test]
fn any_plan_cut_to_4096() {
    assert!(!passes(|plan, out| {
        converted(&plan[..plan.len().min(LONGEST_PLAN)], out)
    }));
}

#[test]
fn a_length_cut_to_16_bits() {
    assert!(!passes(|plan, out| {
        converted(&plan[..usize::from(plan.len() as u16)], out)
    }));
}

#[test]
fn a_tail_not_looked_at() {
    assert!(!passes(|plan, out| {
        converted(&plan[..plan.len() - plan.len() % BLOCK], out)
    }));
}

#[test]
fn an_empty_plan_let_through() {
    assert!(!passes(|plan, out| match plan {
        [] => Refusal::NONE,
        _ => converted(plan, out),
    }));
}
