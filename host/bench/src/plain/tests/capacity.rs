//! Both searches for the smallest capacity, the product's and the simple one upward, on the desk's plans and on small
//! random ones.

#[path = "../../inputs/desk.rs"]
mod desk;

use super::{plan_in, verdict};
use crate::{block, exports};
use desk::{ASKED, Question, questions};
use reference::plan::{Guest, Plan, Refusal, read};
use reference::verdict::{Verdict, smallest_capacity, works};

/// What both searches say, which must be the same.
fn searched(plan: crate::Plan, id: u32) -> Verdict {
    let found = verdict(exports::smallest_capacity(plan, id));
    let upward = verdict(exports::smallest_capacity_upward(plan, id));
    assert_eq!(found, upward, "{plan:?}");
    found
}

#[test]
fn the_desks_plans_have_the_answers_that_they_are_named_by() {
    for Question { name, answer, plan } in questions() {
        let found = searched(block::read(&plan).expect("a plan"), ASKED);
        let number = if answer.is_some() { 0 } else { 11 };
        let told = (found.number, found.ticks);
        assert_eq!(told, (number, answer.unwrap_or(0)), "{name}");
    }
}

/// The reference tries every number of ticks, so it is asked for the whole search where that ends soon (with a long
/// period few ticks are left for a response), and otherwise for the answer and some smaller capacities.
#[test]
fn the_reference_gives_the_desk_the_same_answers() {
    for Question { name, answer, plan } in questions() {
        let outcome = read(&plan);
        assert_eq!(outcome.refusal, Refusal::NONE, "{name}");
        let plan = outcome.plan;
        let period = plan.guests[7].period;
        match answer {
            Some(answer) if answer <= 10 || (answer <= 1_000 && period > 500_000) => {
                assert_eq!(smallest_capacity(&plan, ASKED).ticks, answer, "{name}")
            }
            Some(answer) => {
                let smaller = [1, 32, answer / 2, answer - 1];
                assert!(!smaller.iter().any(|one| works(&plan, 7, *one)), "{name}");
                assert!(works(&plan, 7, answer), "{name}");
            }
            None => {
                let some = [1, 2, 33, 1_000, period / 2, period];
                assert!(!some.iter().any(|one| works(&plan, 7, *one)), "{name}");
            }
        }
    }
}

/// With the answer for its capacity the whole plan holds: the guests above are no strange ones.
#[test]
fn the_desks_plans_are_accepted_with_their_answers() {
    for Question { name, answer, plan } in questions() {
        let Some(answer) = answer else { continue };
        let mut plan = block::read(&plan).expect("a plan");
        plan.guests[7].capacity = answer;
        assert_eq!(plan.accepted(), Ok(true), "{name}");
    }
}

/// Small plans with answers of every size: found one by one, by doubling, by halving, and none.
#[test]
fn small_plans_have_the_references_answers() {
    let mut random = Random(14);
    let mut seen = [0; 6];
    for _ in 0..600 {
        let plan = small_plan(&mut random);
        let id = plan.count;
        let answer = smallest_capacity(&plan, id);
        assert_eq!(searched(plan_in(&plan), id), answer, "{plan:?}");
        let size = match answer.ticks {
            0 => 0,
            1..=31 => 1,
            32..=33 => 2,
            34..=64 => 3,
            65..=128 => 4,
            _ => 5,
        };
        seen[size] += 1;
    }
    assert!(seen.iter().all(|seen| *seen >= 10), "{seen:?}");
}

/// Up to 3 guests, the lowest of which has a period of up to 300, and may have bound tasks.
fn small_plan(random: &mut Random) -> Plan {
    let count = random.from(1, 3);
    let mut guests: Vec<Guest> = (1..count)
        .map(|id| {
            let period = random.from(5, 40);
            Guest::new(id, random.from(1, period / 4), period, &[[1, 100, 100]])
        })
        .collect();
    let period = random.from(1, 300);
    let tasks: Vec<[u32; 3]> = (0..random.from(1, 4))
        .map(|_| {
            let every = period * random.from(1, 4);
            let share = random.from(2, 20);
            let run = random.from(1, 1 + every / share);
            [run, every, every - random.from(0, every / 4)]
        })
        .collect();
    guests.push(Guest {
        marks: random.from(0, 15) as u16,
        ..Guest::new(count, 1, period, &tasks)
    });
    Plan::new(&guests)
}

/// Random numbers that a seed decides (splitmix64).
struct Random(u64);

impl Random {
    /// A number from `low` to `high`, both included.
    fn from(&mut self, low: u32, high: u32) -> u32 {
        self.0 = self.0.wrapping_add(0x9E37_79B9_7F4A_7C15);
        let z = (self.0 ^ (self.0 >> 30)).wrapping_mul(0xBF58_476D_1CE4_E5B9);
        let z = (z ^ (z >> 27)).wrapping_mul(0x94D0_49BB_1331_11EB);
        low + ((z ^ (z >> 31)) % u64::from(high - low + 1)) as u32
    }
}
