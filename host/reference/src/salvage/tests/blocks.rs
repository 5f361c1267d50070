//! Which blocks are kept, and what is changed in them.

use super::*;

/// A block of plan A's second guest with some bytes changed and the check made anew.
fn changed(bytes: &[(usize, u8)]) -> Vec<u8> {
    let mut block = blocks_of(&plan_a_bound(1))[BLOCK..].to_vec();
    for (at, value) in bytes {
        block[*at] = *value;
    }
    seal(&mut block);
    block
}

/// The number that such a block alone is dropped by, 0 if it is kept.
fn number(bytes: &[(usize, u8)]) -> u32 {
    salvaged(&changed(bytes)).0.fates[0].number
}

#[test]
fn the_place_is_not_asked() {
    for place in [0, 1, 7, 8, 255] {
        for high in [0, 1, 255] {
            let (outcome, bytes) = salvaged(&changed(&[(2, place), (3, high)]));
            assert_eq!(outcome.list(), [Fate::kept(0)]);
            assert_eq!(bytes, changed(&[(2, 0)]));
        }
    }
}

#[test]
fn each_reason_by_itself() {
    let mut block = changed(&[]);
    block[511] ^= 1;
    assert_eq!(numbers(&salvaged(&block).0), [2]);
    // Another kind, kind 2 without marks, a byte beside the kind.
    assert_eq!(number(&[(0, 3)]), 3);
    assert_eq!(number(&[(20, 0)]), 3);
    assert_eq!(number(&[(1, 1)]), 3);
    // Id, capacity, period and number of tasks.
    assert_eq!(number(&[(4, 0)]), 4);
    assert_eq!(number(&[(8, 21)]), 4);
    assert_eq!(number(&[(15, 1)]), 4);
    assert_eq!(number(&[(16, 17)]), 4);
    // Kind 1 with marks, a mark past the tasks, byte 22, bytes that must be zero.
    assert_eq!(number(&[(0, 1)]), 5);
    assert_eq!(number(&[(20, 5)]), 5);
    assert_eq!(number(&[(22, 2)]), 5);
    for at in [23, 31, 56, 223, 224, 507] {
        assert_eq!(number(&[(at, 1)]), 5);
    }
    // A run, and a bound task's period that is no multiple of its guest's.
    assert_eq!(number(&[(32, 0)]), 6);
    assert_eq!(number(&[(36, 61)]), 6);
    assert_eq!(number(&[]), 0);
}

#[test]
fn the_first_reason_is_told() {
    let mut block = changed(&[(0, 3), (4, 0), (23, 1), (32, 0)]);
    assert_eq!(number(&[(0, 3), (4, 0), (23, 1), (32, 0)]), 3);
    block[511] ^= 1;
    assert_eq!(numbers(&salvaged(&block).0), [2]);
    assert_eq!(number(&[(4, 0), (23, 1), (32, 0)]), 4);
    assert_eq!(number(&[(23, 1), (32, 0)]), 5);
}

#[test]
fn byte_22_stays_as_it_is_found() {
    for (marks, server) in [(0, 1), (1, 0), (1, 1), (3, 1)] {
        let block = changed(&[(2, 5), (20, marks), (22, server)]);
        let (_, bytes) = salvaged(&block);
        assert_eq!(bytes, changed(&[(2, 0), (20, marks), (22, server)]));
        assert_eq!([bytes[0], bytes[20], bytes[22]], [2, marks, server]);
    }
}

#[test]
fn ids_are_seen_in_kept_blocks_only() {
    let block = changed(&[]);
    let dropped = changed(&[(32, 0)]);
    let file = [&dropped[..], &block, &dropped, &block].concat();
    let (outcome, bytes) = salvaged(&file);
    assert_eq!(numbers(&outcome), [6, 0, 4, 4]);
    assert_eq!(outcome.fates[1], Fate::kept(0));
    assert_eq!(bytes, moved(&block, 0));
}

#[test]
fn kept_blocks_move_up_in_order() {
    let whole = blocks_of(&full());
    for lost in 0..256 {
        let mut file = whole.clone();
        for (at, block) in file.chunks_mut(BLOCK).enumerate() {
            if lost >> at & 1 == 1 {
                block.fill(0xFF);
            }
        }
        let (outcome, bytes) = salvaged(&file);
        let guests = full().guests.into_iter().enumerate();
        let left: Vec<Guest> = guests
            .filter(|(at, _)| lost >> at & 1 == 0)
            .map(|(_, guest)| guest)
            .collect();
        assert_eq!(bytes, blocks_of(&Plan::new(&left)));
        let new_places = outcome.list().iter().filter(|fate| fate.number == 0);
        assert!(new_places.map(|fate| fate.place).eq(0..left.len() as u32));
    }
}

#[test]
fn exchanged_blocks_come_back_exchanged() {
    let whole = blocks_of(&plan_a());
    let (first, second) = whole.split_at(BLOCK);
    let (outcome, bytes) = salvaged(&[second, first].concat());
    assert_eq!(outcome.list(), [Fate::kept(0), Fate::kept(1)]);
    let [seven, nine] = [plan_a().guests[0], plan_a().guests[1]];
    assert_eq!(bytes, blocks_of(&Plan::new(&[nine, seven])));
}
