//! The plans that are measured, as blocks: each side reads them by its own reader. Beside them the sheets, of
//! amendments and of releases, the logs, the damaged and old files, and what the desk asks.

mod damaged;
mod deferrable;
pub mod desk;
mod logs;
mod unordered;

pub use damaged::half_damaged;
pub use deferrable::{deferrable_near_a_million, deferrable_plan_a};
pub use logs::{jobs, log};
pub use unordered::{descending, no_order, plan_a_exchanged};

use coreshare::pair;
use plain::Guest;
use plain::block::{BLOCK, blocks};

/// Guests' periods with no common factor.
const PERIODS: [u32; 8] = [
    9_973, 11_003, 13_007, 17_011, 19_013, 23_017, 29_021, 31_019,
];

/// A standing plan and an amendment sheet in the plan's order from its first guest on, so that it can be read as a
/// plan too.
pub struct Amended {
    pub plan: Vec<u8>,
    pub sheet: Vec<u8>,
}

/// Plan A of document 01.
pub fn plan_a() -> Vec<u8> {
    plan_a_with(8)
}

/// Plan A with a sheet of both guests, the second with its smallest capacity.
pub fn amended_plan_a() -> Amended {
    Amended {
        plan: plan_a(),
        sheet: plan_a_with(7),
    }
}

/// Plan A with this capacity for guest 9.
fn plan_a_with(capacity: u32) -> Vec<u8> {
    blocks(&[
        Guest::new(7, 2, 5, &[[1, 20, 20]]),
        Guest::new(9, capacity, 20, &[[10, 50, 50], [8, 100, 100]]),
    ])
}

/// 8 guests of 16 tasks with periods near 1,000,000, all met: each recurrence has a few turns.
pub fn near_a_million() -> Vec<u8> {
    full(task_near_a_million)
}

/// The same with every second task bound.
pub fn bound_near_a_million() -> Vec<u8> {
    bound(EVERY_SECOND, task_near_a_million)
}

fn task_near_a_million(guest: u32, task: u32) -> [u32; 3] {
    let every = 999_983 - 1_009 * task - 13 * guest;
    [3_900, every, every]
}

/// 8 guests of 16 tasks whose periods grow to 1,000,000, all met: each recurrence has many turns.
pub fn growing() -> Vec<u8> {
    full(growing_task)
}

fn growing_task(guest: u32, task: u32) -> [u32; 3] {
    let every = 60_000 + 62_600 * task - 17 * guest;
    [every / 250, every, every]
}

/// The plan near a million with a sheet of its first guests, as they are in the growing one.
pub fn amended(count: usize) -> Amended {
    Amended {
        plan: near_a_million(),
        sheet: growing()[..BLOCK * count].to_vec(),
    }
}

/// The growing plan, but for the very last task, which is unmet.
pub fn last_unmet() -> Vec<u8> {
    full(|guest, task| {
        let [run, every, deadline] = growing_task(guest, task);
        let last = guest == 7 && task == 15;
        [run, every, if last { 100_000 } else { deadline }]
    })
}

/// 7 guests that leave one tick in 128, and below them a guest that has to climb for each of its own.
pub fn long_climb() -> Vec<u8> {
    let mut guests: Vec<Guest> = (1..8)
        .map(|id| Guest::new(id, 1, 1 << id, &[[1, 1_000, 1_000]]))
        .collect();
    guests.push(Guest::new(
        8,
        700,
        100_000,
        &[[100, 1_000_000, 1_000_000]; 16],
    ));
    blocks(&guests)
}

/// 8 guests of 16 tasks, the last of which needs next to nothing.
pub fn little_asked() -> Vec<u8> {
    full(|guest, task| {
        let every = 999_983 - 1_009 * task - 13 * guest;
        [if guest == 7 { 11 } else { 3_900 }, every, every]
    })
}

/// A guest of period 1,000,000 under 3 short ones, with 16 tasks that need some half of it.
pub fn half_a_million() -> Vec<u8> {
    let mut guests = short_guests();
    guests.push(Guest::new(
        4,
        1,
        1_000_000,
        &[[26_600, 1_000_000, 1_000_000]; 16],
    ));
    blocks(&guests)
}

/// The same with every second task bound.
pub fn bound_half_a_million() -> Vec<u8> {
    let tasks = [[26_600, 1_000_000, 1_000_000]; 16];
    let mut last = Guest::new(4, 1, 1_000_000, &tasks);
    last.marks = EVERY_SECOND;
    let mut guests = short_guests();
    guests.push(last);
    blocks(&guests)
}

/// The same unbound, with tasks that no capacity is enough for.
pub fn no_capacity() -> Vec<u8> {
    let mut guests = short_guests();
    guests.push(Guest::new(
        4,
        1,
        1_000_000,
        &[[60_000, 1_000_000, 1_000_000]; 16],
    ));
    blocks(&guests)
}

fn short_guests() -> Vec<Guest> {
    [(1, 997), (2, 1_999), (3, 4_001)]
        .iter()
        .map(|(id, period)| Guest::new(*id, period / 20, *period, &[[1, 900_000, 900_000]]))
        .collect()
}

/// 8 guests of 16 tasks with jobs that last longer than any run.
pub fn endless() -> Vec<u8> {
    let mut guests: Vec<Guest> = guests(|_, _| [1_000_000, 1_000_000, 1_000_000]).collect();
    for guest in &mut guests {
        guest.charge = 65_535;
    }
    blocks(&guests)
}

/// 8 guests of 16 tasks, all of them bound.
pub fn all_bound() -> Vec<u8> {
    bound(u16::MAX, |_, _| [1_000_000, 1_000_000, 1_000_000])
}

/// The pairs of all tasks of a full plan, and then the same again.
pub fn twice() -> Vec<u64> {
    let once = (1..=8).flat_map(|id| (1..=16).map(move |task| pair(id, task)));
    once.clone().chain(once).collect()
}

/// The pairs of the last guest's tasks.
pub fn last_guests() -> Vec<u64> {
    (1..=16).map(|task| pair(8, task)).collect()
}

/// The marks of every second task, the last one's included.
const EVERY_SECOND: u16 = 0xAAAA;

/// 8 guests with these marks: the period and deadline of a bound task are cut to a multiple of its guest's period.
fn bound(marks: u16, task: impl Fn(u32, u32) -> [u32; 3]) -> Vec<u8> {
    let mut guests: Vec<Guest> = guests(task).collect();
    for guest in &mut guests {
        guest.marks = marks;
        for task in (0..16).filter(|task| marks >> task & 1 == 1) {
            guest.every[task] -= guest.every[task] % guest.period;
            guest.deadline[task] = guest.every[task];
        }
    }
    blocks(&guests)
}

fn full(task: impl Fn(u32, u32) -> [u32; 3]) -> Vec<u8> {
    blocks(&guests(task).collect::<Vec<_>>())
}

/// 8 guests, each with a tenth of the core and 16 tasks.
fn guests(task: impl Fn(u32, u32) -> [u32; 3]) -> impl Iterator<Item = Guest> {
    (0..8).map(move |at| {
        let period = PERIODS[at as usize];
        let tasks: Vec<[u32; 3]> = (0..16).map(|number| task(at, number)).collect();
        Guest::new(at + 1, period / 10, period, &tasks)
    })
}
