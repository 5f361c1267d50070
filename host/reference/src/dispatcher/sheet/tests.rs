use super::*;
use crate::dispatcher::{fresh, tick};
use crate::samples::{full, long_gap, plan_a};

/// What an answer place holds that is not written.
const CANARY: u32 = 0xA5A5_A5A5;

fn started() -> Dispatcher {
    fresh(&plan_a()).dispatcher
}

fn after(state: &Dispatcher, ticks: u32) -> Dispatcher {
    (0..ticks).fold(*state, |state, _| tick(&state).dispatcher)
}

/// The answers to a sheet that has two more answer places than pairs, which stay; and the next state.
fn answered(state: &Dispatcher, pairs: &[u64]) -> (Vec<u32>, Dispatcher) {
    let mut answers = vec![CANARY; pairs.len() + 2];
    let outcome = sheet(state, pairs, &mut answers);
    assert_eq!(outcome.refusal, Refusal::NONE);
    assert_eq!(answers[pairs.len()..], [CANARY; 2]);
    answers.truncate(pairs.len());
    (answers, outcome.dispatcher)
}

/// The number that a sheet of so many pairs is refused by whole, with so many answer places.
fn refused_whole(state: &Dispatcher, pairs: usize, room: usize) -> u32 {
    let mut answers = vec![CANARY; room];
    let outcome = sheet(state, &vec![pair(9, 1); pairs], &mut answers);
    if outcome.refusal.number != 0 {
        assert_eq!(outcome.refusal.place, 0);
        assert_eq!(outcome.dispatcher, *state);
        assert_eq!(answers, vec![CANARY; room]);
    }
    outcome.refusal.number
}

#[test]
fn a_pair_is_guest_id_times_65536_plus_task_number() {
    assert_eq!(pair(9, 2), 589_826);
    assert_eq!(parts(589_826), (9, 2));
    assert_eq!(parts(pair(u32::MAX, u16::MAX)), (4_294_967_295, 65_535));
    assert_eq!(parts(u64::MAX), ((1 << 48) - 1, 65_535));
}

#[test]
fn a_sheet_is_its_releases_one_by_one() {
    let state = started();
    let (answers, next) = answered(&state, &[pair(9, 2), pair(7, 1)]);
    assert_eq!(answers, [0, 0]);
    let first = release(&state, 9, 2).dispatcher;
    assert_eq!(next, release(&first, 7, 1).dispatcher);
}

#[test]
fn a_repeated_pair_is_judged_after_the_first() {
    let (answers, next) = answered(&started(), &[pair(9, 1), pair(7, 1), pair(9, 1)]);
    assert_eq!(answers, [0, 0, 9]);
    let (answers, same) = answered(&next, &[pair(9, 1), pair(9, 1)]);
    assert_eq!(answers, [9, 9]);
    assert_eq!(same, next);
}

#[test]
fn each_refusal_of_a_pair_leaves_the_others() {
    let pairs = [pair(8, 1), pair(9, 0), pair(9, 3), pair(9, 1), pair(9, 1)];
    let (answers, next) = answered(&started(), &pairs);
    assert_eq!(answers, [7, 8, 8, 0, 9]);
    assert_eq!(next, release(&started(), 9, 1).dispatcher);
    let late = fresh(&long_gap()).dispatcher;
    let late = after(&release(&late, 1, 1).dispatcher, 10);
    let (answers, next) = answered(&late, &[pair(1, 1), 0]);
    assert_eq!(answers, [10, 7]);
    assert_eq!(next, late);
}

#[test]
fn a_guest_part_beyond_32_bits_names_no_guest() {
    let beyond = |bit: u32| pair(9, 1) + (1 << bit);
    let other = pair(9 + (1 << 31), 1);
    let pairs = [beyond(48), beyond(63), u64::MAX, other, pair(9, 1)];
    let (answers, next) = answered(&started(), &pairs);
    assert_eq!(answers, [7, 7, 7, 7, 0]);
    assert_eq!(next, release(&started(), 9, 1).dispatcher);
}

#[test]
fn no_pairs_change_nothing() {
    for room in [0, 1, 300] {
        let mut answers = vec![CANARY; room];
        let outcome = sheet(&started(), &[], &mut answers);
        assert_eq!(outcome.refusal, Refusal::NONE);
        assert_eq!(outcome.dispatcher, started());
        assert_eq!(answers, vec![CANARY; room]);
    }
}

#[test]
fn one_pair_is_a_release() {
    let (answers, next) = answered(&started(), &[pair(9, 1)]);
    assert_eq!(answers, [0]);
    assert_eq!(next, release(&started(), 9, 1).dispatcher);
}

#[test]
fn a_sheet_of_256_pairs() {
    let state = fresh(&full()).dispatcher;
    let once = (1..=8).flat_map(|id| (1..=16).map(move |task| pair(id, task)));
    let twice: Vec<u64> = once.clone().chain(once).collect();
    let (answers, next) = answered(&state, &twice);
    assert_eq!(answers[..128], [0; 128]);
    assert_eq!(answers[128..], [9; 128]);
    assert_eq!(next.wait, [300; 128]);
    assert_eq!(refused_whole(&state, 256, 256), 0);
    assert_eq!(refused_whole(&state, 257, 257), 15);
}

#[test]
fn too_few_answer_places() {
    for (pairs, room) in [(1, 0), (2, 0), (2, 1), (256, 255)] {
        assert_eq!(refused_whole(&started(), pairs, room), 12);
    }
    assert_eq!(refused_whole(&started(), 2, 2), 0);
}

#[test]
fn sheets_are_refused_whole_in_their_order() {
    let mut bad = started();
    bad.position[0] = 5;
    for (pairs, room) in [(0, 0), (1, 1), (1, 0), (257, 257), (257, 256)] {
        assert_eq!(refused_whole(&bad, pairs, room), 14);
    }
    for room in [0, 256, 257, 300] {
        assert_eq!(refused_whole(&started(), 257, room), 15);
    }
}

#[test]
fn where_the_ticks_went_stays() {
    let state = after(&started(), 40);
    let (_, next) = answered(&state, &[pair(9, 1), pair(8, 1)]);
    assert_eq!(next.usage, state.usage);
    let mut any = started();
    any.usage = [u64::MAX; 17];
    assert_eq!(refused_whole(&any, 1, 1), 0);
    assert_eq!(refused_whole(&any, 257, 0), 15);
}
