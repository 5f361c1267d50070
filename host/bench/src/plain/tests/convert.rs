//! Conversions with the reference's types, and old plans that are worked out by hand.

use super::{plan_in, refusal};
use crate::block::{read, write};
use crate::verdict::TaskVerdict;
use crate::{Dispatcher, exports};
use reference::plan::{BLOCK, Refusal, blocks_of};
use reference::samples::{deferrable, plan_a, plan_a_bound};

pub fn convert(plan: &[u8], out: &mut [u8]) -> Refusal {
    refusal(exports::convert(plan, out))
}

#[test]
fn an_old_card_becomes_the_periodic_plan() {
    for plan in [plan_a(), plan_a_bound(2)] {
        let card = blocks_of(&deferrable(plan));
        let mut out = [0xFF; 2 * BLOCK + 9];
        assert_eq!(convert(&card, &mut out), Refusal::NONE);
        assert_eq!(out[..2 * BLOCK], blocks_of(&plan));
        assert_eq!(out[2 * BLOCK..], [0xFF; 9]);
    }
}

#[test]
fn periodic_guests_come_back() {
    let periodic = blocks_of(&plan_a_bound(1));
    let old = blocks_of(&deferrable(plan_a_bound(1)));
    let mixed = [&old[..BLOCK], &periodic[BLOCK..]].concat();
    let mut out = [0; 2 * BLOCK];
    for plan in [mixed, periodic.clone()] {
        assert_eq!(convert(&plan, &mut out), Refusal::NONE);
        assert_eq!(out[..], periodic);
    }
}

#[test]
fn responses_are_no_larger() {
    let old = blocks_of(&deferrable(plan_a()));
    let mut out = [0; 2 * BLOCK];
    assert_eq!(convert(&old, &mut out), Refusal::NONE);
    for (bytes, [guest, one, two]) in [(&old[..], [16, 38, 82]), (&out[..], [14, 36, 80])] {
        let plan = read(bytes).expect("a plan");
        assert_eq!(plan.guest_verdict(9), Ok(Some(guest)));
        assert_eq!(plan.task_verdict(9, 1), Ok(TaskVerdict::Met(one)));
        assert_eq!(plan.task_verdict(9, 2), Ok(TaskVerdict::Met(two)));
    }
}

#[test]
fn a_refused_plan_writes_nothing() {
    let mut card = blocks_of(&deferrable(plan_a()));
    let mut out = [0xFF; 2 * BLOCK];
    assert_eq!(convert(&card, &mut out[1..]), Refusal::new(12, 0));
    assert_eq!(convert(&card[1..], &mut out), Refusal::new(1, 0));
    card[BLOCK + 22] = 2;
    assert_eq!(convert(&card, &mut out[1..]), Refusal::new(2, 1));
    assert_eq!(out, [0xFF; 2 * BLOCK]);
}

#[test]
fn deferrable_guests_are_neither_written_nor_started() {
    let plan = plan_in(&deferrable(plan_a()));
    let mut block = [0xFF; BLOCK];
    let refused = write(&plan.guests[1], 1, &mut block).map_err(refusal);
    assert_eq!(refused, Err(Refusal::new(23, 0)));
    assert_eq!(block, [0xFF; BLOCK]);
    let started = Dispatcher::fresh(&plan).map_err(refusal);
    assert_eq!(started, Err(Refusal::new(23, 0)));
    let mut state = Dispatcher::fresh(&plan_in(&plan_a())).expect("a start");
    state.plan.guests[1].deferrable = 7;
    assert_eq!(state.tick().map_err(refusal), Err(Refusal::new(14, 0)));
}
