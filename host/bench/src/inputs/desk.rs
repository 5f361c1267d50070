//! What the desk asks: plans of 8 guests with 16 tasks each, and the smallest capacity of the lowest guest, which each
//! of them is made to have. The tests read this file too, so it takes nothing from those beside it.

use plain::block::blocks;
use plain::verdict::TaskVerdict;
use plain::{Guest, Plan};

/// The id of the guest that is asked for, the lowest one.
pub const ASKED: u32 = 8;

/// Its period: near 1,000,000, or a short one. Near 1,000,000 every job has to end within one period of its guest, so a
/// guest with 16 tasks cannot do with less than 16; smaller answers need a short period.
const LONG: u32 = 990_001;
const SHORT: u32 = 10_007;

/// The periods of the guests above, with no common factor.
const PERIODS: [u32; 7] = [9_973, 11_003, 13_007, 17_011, 19_013, 23_017, 29_021];

/// Which of the asked guest's tasks decides its capacity. A capacity that is too small is found to be so at the first
/// unmet task, so each try that fails costs next to nothing or as much as one that works.
const FIRST: usize = 0;
const LAST: usize = 15;

pub struct Question {
    pub name: &'static str,
    /// The smallest capacity, if there is any.
    pub answer: Option<u32>,
    pub plan: Vec<u8>,
}

pub fn questions() -> Vec<Question> {
    let mut all = vec![
        asked("desk-short-1", SHORT, 1, LAST),
        asked("desk-short-2", SHORT, 2, LAST),
        asked("desk-short-3", SHORT, 3, LAST),
        asked("desk-short-10", SHORT, 10, LAST),
        asked("desk-short-33", SHORT, 33, LAST),
        asked("desk-short-100", SHORT, 100, LAST),
        asked("desk-short-1000", SHORT, 1_000, LAST),
        asked("desk-31", LONG, 31, LAST),
        asked("desk-32", LONG, 32, LAST),
        asked("desk-33", LONG, 33, LAST),
        asked("desk-64", LONG, 64, LAST),
        asked("desk-65", LONG, 65, LAST),
        asked("desk-100", LONG, 100, LAST),
        asked("desk-1000", LONG, 1_000, LAST),
        asked("desk-9999", LONG, 9_999, LAST),
        asked("desk-10001", LONG, 10_001, LAST),
        asked("desk-100000", LONG, 100_000, LAST),
        asked("desk-300000", LONG, 300_000, LAST),
    ];
    all.extend(decided_by_the_first());
    all.extend(without_an_answer());
    all
}

fn decided_by_the_first() -> [Question; 7] {
    [
        asked("desk-first-32", LONG, 32, FIRST),
        asked("desk-first-33", LONG, 33, FIRST),
        asked("desk-first-64", LONG, 64, FIRST),
        asked("desk-first-65", LONG, 65, FIRST),
        asked("desk-first-100", LONG, 100, FIRST),
        asked("desk-first-1000", LONG, 1_000, FIRST),
        asked("desk-first-10001", LONG, 10_001, FIRST),
    ]
}

fn without_an_answer() -> [Question; 3] {
    let lowest = guest_asked(LONG, 1_000);
    let mut unfit = guests_above();
    unfit[5].capacity = unfit[5].period;
    let none = |name, above: [Guest; 7], lowest| Question {
        name,
        answer: None,
        plan: blocks(plan(above, lowest).listed()),
    };
    [
        none("desk-none-under-unfit", unfit, lowest),
        none("desk-none-fitted", guests_with_the_whole_core(), lowest),
        none(
            "desk-none-met",
            guests_above(),
            guest_asked(LONG, 1_100_000),
        ),
    ]
}

/// A plan with this answer. The deadline of the deciding task is its response at that capacity: with a tick less its
/// guest's gap, T - C, is longer by a tick, so that the task is unmet.
fn asked(name: &'static str, period: u32, answer: u32, deciding: usize) -> Question {
    let lowest = Guest {
        capacity: answer,
        ..guest_asked(period, answer)
    };
    let mut plan = plan(guests_above(), lowest);
    let Ok(TaskVerdict::Met(response)) = plan.task_verdict(ASKED, deciding as u32 + 1) else {
        panic!("{name}: the deciding task is not met");
    };
    plan.guests[7].deadline[deciding] = response;
    plan.guests[7].capacity = 1;
    Question {
        name,
        answer: Some(answer),
        plan: blocks(plan.listed()),
    }
}

fn plan(above: [Guest; 7], lowest: Guest) -> Plan {
    let mut plan = Plan {
        count: 8,
        ..Plan::default()
    };
    plan.guests[..7].copy_from_slice(&above);
    plan.guests[7] = lowest;
    plan
}

/// The guest that is asked for, its runs scaled to the answer: with a period near 1,000,000 they are four fifths of it
/// together; with a short one each task takes the whole capacity of one period.
fn guest_asked(period: u32, answer: u32) -> Guest {
    let tasks: [[u32; 3]; 16] = std::array::from_fn(|at| {
        let at = at as u32;
        let up_to = |tasks: u32| answer / 5 * 4 * tasks / 16;
        let (run, every) = match period {
            LONG => (up_to(at + 1) - up_to(at), 999_983 - 101 * at),
            _ => (answer, 200_003 + 50_021 * at),
        };
        [run, every, every]
    });
    Guest::new(ASKED, 1, period, &tasks)
}

/// 7 guests, each with a fortieth of the core, all met: a recurrence below them has a few turns.
fn guests_above() -> [Guest; 7] {
    std::array::from_fn(|at| guest_above(at, PERIODS[at] / 40, PERIODS[at]))
}

/// 7 fitted guests that leave nothing: a half, a quarter and so on, and the last as much as the one before it.
fn guests_with_the_whole_core() -> [Guest; 7] {
    std::array::from_fn(|at| guest_above(at, if at == 6 { 2_000 } else { 1_000 }, 2_000 << at))
}

fn guest_above(at: usize, capacity: u32, period: u32) -> Guest {
    let tasks: [[u32; 3]; 16] = std::array::from_fn(|task| {
        let every = 999_983 - 1_009 * task as u32 - 13 * at as u32;
        [900, every, every]
    });
    Guest::new(at as u32 + 1, capacity, period, &tasks)
}
