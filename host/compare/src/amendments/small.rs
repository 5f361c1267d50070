//! Small plans with amendment sheets, all of them.

use super::questions;
use crate::call::{Amended, Call, Question};
use crate::pairs::{pairs, wrong_words};
use crate::session::Session;
use reference::plan::{BLOCK, Guest, LONGEST_PLAN, MOST_GUESTS, Plan, block_of, blocks_of, seal};
use reference::samples::{deferrable, full, plan_a, plan_a_bound};

pub fn compare(session: &mut Session) {
    orders(session);
    capacities(session);
    numbers_of_blocks(session);
    lengths(session);
    flipped_bits(session);
    pairs_of_damages(session);
}

/// Every question about each guest and each task, those that are not there included.
fn every_question(session: &mut Session, of: &Amended) {
    for guest in [plan_a().guests[0], plan_a().guests[1], Guest::default()] {
        for task in 0..=guest.tasks + 1 {
            questions(session, of, guest.id, task);
        }
    }
}

/// A guest with its second task bound and Deferrable as two bits say.
fn of_bits(id: u32, capacity: u32, bits: u32) -> Guest {
    let long = 10 * (4 + id);
    Guest {
        marks: bits as u16 & 2,
        deferrable: bits & 1,
        ..Guest::new(id, capacity, 4 + id, &[[1, 40, 30], [id, long, long]])
    }
}

/// Each sheet that has some of four guests, in each order, with other numbers than the plan; a guest of the sheet is
/// Deferrable where it is Periodic in the plan, and has its task bound where it is unbound.
fn orders(session: &mut Session) {
    let plan = blocks_of(&Plan::new(&[1, 2, 3, 4].map(|id| of_bits(id, 1, id))));
    for places in some_in_each_order(4) {
        let blocks = places.iter().map(|place| {
            let id = *place as u32 + 1;
            block_of(&of_bits(id, 2, !id), *place as u16)
        });
        let sheet = blocks.collect::<Vec<_>>().concat();
        let of = Amended {
            plan: plan.clone(),
            sheet,
        };
        for id in 0..=5 {
            questions(session, &of, id, 2);
        }
    }
}

/// Each choice of one or more of the first numbers, in each order.
fn some_in_each_order(count: usize) -> Vec<Vec<usize>> {
    let mut longest: Vec<Vec<usize>> = vec![Vec::new()];
    let mut all = Vec::new();
    for _ in 0..count {
        let longer = longest.iter().flat_map(|one| {
            let others = (0..count).filter(|number| !one.contains(number));
            others.map(|number| [&one[..], &[number]].concat())
        });
        longest = longer.collect();
        all.extend_from_slice(&longest);
    }
    all
}

/// Plan A, both guests Periodic and both Deferrable, with each capacity for guest 9, unbound and with each of its tasks
/// bound, and with a guest for which no capacity works; the sheet has the first guest as the plan has it not.
fn capacities(session: &mut Session) {
    let mut tried = vec![Guest::new(9, 1, 6, &[[4, 6, 6]])];
    for plan in [plan_a(), plan_a_bound(1), plan_a_bound(2), plan_a_bound(3)] {
        tried.extend((1..=20).map(|capacity| Guest {
            capacity,
            ..plan.guests[1]
        }));
    }
    let [periodic, other] = [plan_a(), deferrable(plan_a())];
    for guest in tried {
        for (standing, amended) in [(periodic, other), (other, periodic)] {
            let [first, second] = [block_of(&amended.guests[0], 0), block_of(&guest, 1)];
            for sheet in [second.to_vec(), [first, second].concat()] {
                let plan = blocks_of(&standing);
                every_question(session, &Amended { plan, sheet });
            }
        }
    }
}

/// Sheets of 0 to 9 blocks for a full plan, from the first guest on, from the last one on, and from one in between:
/// the ninth block has the first one's guest again.
fn numbers_of_blocks(session: &mut Session) {
    let plan = blocks_of(&full());
    let blocks: Vec<&[u8]> = plan.chunks(BLOCK).collect();
    for (first, step) in [(0, 1), (7, 7), (3, 5)] {
        for count in 0..=MOST_GUESTS + 1 {
            let places = (0..count).map(|at| (first + step * at) % MOST_GUESTS);
            let of = Amended {
                plan: plan.clone(),
                sheet: places.flat_map(|place| blocks[place]).copied().collect(),
            };
            for id in 0..=9 {
                session.compare(Call::Amended(of.clone(), Question::Find(id)));
                session.compare(Call::Amended(of.clone(), Question::Guest(id)));
            }
        }
    }
}

/// Every length of the sheet and of the plan, from nothing to more than a plan.
fn lengths(session: &mut Session) {
    let mut bytes = blocks_of(&full());
    bytes.resize(LONGEST_PLAN + BLOCK + 2, 0);
    for length in 0..bytes.len() {
        let (whole, part) = (&bytes[..LONGEST_PLAN], &bytes[..length]);
        for (plan, sheet) in [(whole, part), (part, &whole[..BLOCK]), (part, part)] {
            let of = Amended {
                plan: plan.to_vec(),
                sheet: sheet.to_vec(),
            };
            questions(session, &of, 8, 1);
        }
    }
}

/// Plan A with guest 9's first task bound, and as amended: guest 7 is Deferrable, and guest 9 has capacity 7 and no
/// bound task. So each guest has a block of either kind.
fn standing_and_amended() -> [Plan; 2] {
    let mut amended = plan_a();
    amended.guests[0].deferrable = 1;
    amended.guests[1].capacity = 7;
    [plan_a_bound(1), amended]
}

/// These two, with a sheet of both guests, the second one first.
fn plan_a_with_both() -> Amended {
    let [standing, amended] = standing_and_amended();
    let [first, second] = [amended.guests[0], amended.guests[1]];
    Amended {
        plan: blocks_of(&standing),
        sheet: [block_of(&second, 1), block_of(&first, 0)].concat(),
    }
}

/// Every bit of the sheet flipped, the check as it was and made anew; and every bit of the plan, made anew.
fn flipped_bits(session: &mut Session) {
    let right = plan_a_with_both();
    for bit in 0..8 * right.sheet.len() {
        let with_sheet = |sheet| Amended {
            sheet,
            ..right.clone()
        };
        let of = with_sheet(flipped(&right.sheet, bit));
        session.compare(Call::Amended(of, Question::Find(9)));
        questions(session, &with_sheet(sealed(&right.sheet, bit)), 9, 1);
        let of = Amended {
            plan: sealed(&right.plan, bit),
            ..right.clone()
        };
        session.compare(Call::Amended(of, Question::Find(9)));
    }
}

fn flipped(bytes: &[u8], bit: usize) -> Vec<u8> {
    let mut bytes = bytes.to_vec();
    bytes[bit / 8] ^= 1 << (bit % 8);
    bytes
}

/// The same with the checks made anew.
fn sealed(bytes: &[u8], bit: usize) -> Vec<u8> {
    let mut bytes = flipped(bytes, bit);
    bytes.chunks_mut(BLOCK).for_each(seal);
    bytes
}

/// Words of the sheet and of the plan, each wrong in a way of its own: the words of the sheet come after the plan's.
fn wrong_words_of_both() -> Vec<(usize, u32)> {
    let sheet = 2 * BLOCK;
    let [standing, amended] = standing_and_amended();
    let mut words = [wrong_words(&standing, 0), wrong_words(&standing, 1)].concat();
    let [second, first] = [wrong_words(&amended, 1), wrong_words(&amended, 0)];
    words.extend(second.iter().map(|(at, word)| (sheet + at - BLOCK, *word)));
    words.extend(first.iter().map(|(at, word)| (sheet + at + BLOCK, *word)));
    words.extend([(sheet + 4, 8), (sheet + BLOCK + 4, 8)]);
    words
}

/// Every pair of damages, so that every order of refusals is met: all checks are made anew, or all but that of the
/// second damage's block. The companion answer is asked for a guest that is not there, too.
fn pairs_of_damages(session: &mut Session) {
    for (first, second) in pairs(&wrong_words_of_both()) {
        for left in [None, Some(second.0 / BLOCK)] {
            let of = damaged([first, second], left);
            // The same pair comes once more with its damages written in the other order.
            if first <= second {
                questions(session, &of, 9, 1);
            }
            session.compare(Call::Amended(of, Question::Find(8)));
        }
    }
}

/// Plan A and its sheet with words put in, and the checks made anew but for one block's.
fn damaged(words: [(usize, u32); 2], left: Option<usize>) -> Amended {
    let right = plan_a_with_both();
    let mut bytes = [&right.plan[..], &right.sheet].concat();
    for (at, word) in words {
        bytes[at..at + 4].copy_from_slice(&word.to_le_bytes());
    }
    for (place, block) in bytes.chunks_mut(BLOCK).enumerate() {
        if left != Some(place) {
            seal(block);
        }
    }
    let (plan, sheet) = bytes.split_at(right.plan.len());
    Amended {
        plan: plan.to_vec(),
        sheet: sheet.to_vec(),
    }
}
