//! Small inputs, all of them.

use crate::call::Call;
use crate::random_calls::every_verdict;
use crate::session::Session;
use reference::dispatcher::{COUNTED, Dispatcher, pair};
use reference::plan::{BLOCK, Guest, LONGEST_PLAN, Plan, blocks_of, seal};
use reference::samples::{falling, full, long_gap, plan_a, unfit_above};

pub fn compare(session: &mut Session) {
    for plan in [plan_a(), falling(), long_gap(), unfit_above()] {
        every_verdict(session, &plan);
    }
    lengths(session);
    flipped_bits(session, &plan_a());
    writes(session);
    plans_of_one_guest(session);
    plans_of_two_guests(session);
    plans_of_three_guests(session);
    plans_below_an_unfit_guest(session);
    products_that_wrap(session);
    states_of_one_guest(session);
    states_of_two_guests(session);
    sheets_of_all_lengths(session);
}

/// Every length from nothing to more than a plan, of zeros and of plan A's first bytes.
fn lengths(session: &mut Session) {
    let mut bytes = blocks_of(&plan_a());
    bytes.resize(LONGEST_PLAN + 2 * BLOCK, 0);
    for length in 0..bytes.len() {
        session.compare(Call::Read(vec![0; length]));
        session.compare(Call::Find(bytes[..length].to_vec(), 9));
    }
}

/// A plan's blocks with every bit flipped, the check as it was and made anew.
pub fn flipped_bits(session: &mut Session, plan: &Plan) {
    let bytes = blocks_of(plan);
    for bit in 0..8 * bytes.len() {
        let mut flipped = bytes.clone();
        flipped[bit / 8] ^= 1 << (bit % 8);
        read_and_find(session, &flipped);
        flipped.chunks_mut(BLOCK).for_each(seal);
        read_and_find(session, &flipped);
    }
}

fn read_and_find(session: &mut Session, bytes: &[u8]) {
    session.compare(Call::Read(bytes.to_vec()));
    for id in [7, 9] {
        session.compare(Call::Find(bytes.to_vec(), id));
    }
}

/// Places in range and out of it, and buffers' lengths about 512, of good and of bad records.
fn writes(session: &mut Session) {
    let good = plan_a().guests[1];
    let no_id = Guest { id: 0, ..good };
    let mut no_run = good;
    no_run.run[1] = 0;
    for guest in [good, no_id, no_run] {
        for place in [0, 1, 6, 7, 8, 9, 65_536, u32::MAX] {
            for length in [0, 1, 256, 511, 512, 513, 1024] {
                let buffer = vec![0xA5; length];
                session.compare(Call::Write(Box::new(guest), place, buffer));
            }
        }
    }
}

/// Each capacity and period up to a longest period.
pub fn servers(longest: u32) -> Vec<[u32; 2]> {
    (1..=longest)
        .flat_map(|period| (1..=period).map(move |capacity| [capacity, period]))
        .collect()
}

/// Each task up to a longest run and period, with every deadline.
pub fn tasks(run: u32, every: u32) -> Vec<[u32; 3]> {
    let times = servers(every);
    (1..=run)
        .flat_map(|run| {
            times
                .iter()
                .map(move |[deadline, every]| [run, *every, *deadline])
        })
        .collect()
}

fn plans_of_one_guest(session: &mut Session) {
    for [capacity, period] in servers(6) {
        for task in tasks(4, 8) {
            let mut guest = Guest::new(1, capacity, period, &[task]);
            every_verdict(session, &Plan::new(&[guest]));
            guest.charge = 1;
            every_verdict(session, &Plan::new(&[guest]));
        }
    }
}

fn plans_of_two_guests(session: &mut Session) {
    for [above, long] in servers(5) {
        let upper = Guest::new(1, above, long, &[[1, 9, 9]]);
        for [capacity, period] in servers(5) {
            for every in 1..=7 {
                for lower in tasks(2, 8) {
                    let both = [[1, every, every], lower];
                    let plan = Plan::new(&[upper, Guest::new(2, capacity, period, &both)]);
                    session.compare(Call::TaskVerdict(Box::new(plan), 2, 2));
                    session.compare(Call::SmallestCapacity(Box::new(plan), 2));
                }
            }
        }
    }
}

fn plans_of_three_guests(session: &mut Session) {
    for [first, first_period] in servers(4) {
        for [second, second_period] in servers(4) {
            for [third, third_period] in servers(4) {
                for task in tasks(2, 6) {
                    let plan = Plan::new(&[
                        Guest::new(1, first, first_period, &[[1, 9, 9]]),
                        Guest::new(2, second, second_period, &[[1, 9, 9]]),
                        Guest::new(3, third, third_period, &[task]),
                    ]);
                    session.compare(Call::GuestVerdict(Box::new(plan), 3));
                    session.compare(Call::TaskVerdict(Box::new(plan), 3, 1));
                    session.compare(Call::SmallestCapacity(Box::new(plan), 3));
                }
            }
        }
    }
}

/// The guest in the middle asks little and is mostly unfit, its period being too short for the one above.
fn plans_below_an_unfit_guest(session: &mut Session) {
    for above in 1..=6 {
        for middle in 1..=4 {
            for deadline in [10, 20, 30, 60] {
                let plan = Plan::new(&[
                    Guest::new(1, above, 12, &[[1, 60, 60]]),
                    Guest::new(2, middle, 4, &[[1, 60, 60]]),
                    Guest::new(3, 1, 20, &[[1, 60, deadline]]),
                ]);
                every_verdict(session, &plan);
            }
        }
    }
}

/// Tasks that are unmet by far, and would be met if a product lost what is above 32 bits.
fn products_that_wrap(session: &mut Session) {
    let far = [1, 1_000_000, 1_000_000];
    let mut most = Guest::new(1, 1, 1_000_000, &[[1_000_000, 1, 1]; 16]);
    most.charge = u16::MAX;
    for (task, guest) in [
        (2, Guest::new(1, 1, 65_536, &[[65_536, 1, 1], far])),
        (2, Guest::new(1, 4, 32_772, &[[131_072, 1, 1], far])),
        (
            1,
            Guest::new(1, 1, 524_289, &[[8_193, 1_000_000, 1_000_000]]),
        ),
        (
            1,
            Guest::new(1, 2, 262_146, &[[32_770, 1_000_000, 1_000_000]]),
        ),
        (16, most),
    ] {
        let plan = Plan::new(&[guest]);
        session.compare(Call::TaskVerdict(Box::new(plan), 1, task));
        session.compare(Call::Accept(Box::new(plan)));
        session.compare(Call::Order(Box::new(plan), 1));
    }
}

/// Every state of a guest 2/3 with one task 2/3/3, and those just out of range.
fn states_of_one_guest(session: &mut Session) {
    let fresh = Dispatcher::with(Plan::new(&[Guest::new(1, 2, 3, &[[2, 3, 3]])]));
    for number in 0..4 * 4 * 4 * 5 {
        for age in [0, 1, 999_999, 1_000_000, 1_000_001] {
            let mut state = fresh;
            state.left[0] = number % 4;
            state.position[0] = number / 4 % 4;
            state.rest[0] = number / 16 % 4;
            state.wait[0] = number / 64;
            state.age[0] = age;
            every_call(session, &state);
            // The longest run that is allowed ends soon where there is a job.
            if state.rest[0] > 0 {
                session.compare(Call::Run(Box::new(state), 1_000_000));
            }
        }
    }
}

/// Every state without ages of guests 1/2 and 1/3, each with one task 2/2/2; whatever a tick counts wraps.
fn states_of_two_guests(session: &mut Session) {
    let guest = |id, period| Guest::new(id, 1, period, &[[2, 2, 2]]);
    let mut fresh = Dispatcher::with(Plan::new(&[guest(1, 2), guest(2, 3)]));
    fresh.usage = [u64::MAX; COUNTED];
    for number in 0..2 * 2 * 2 * 3 * 3 * 3 * 3 * 3 {
        let mut state = fresh;
        state.left[..2].copy_from_slice(&[number % 2, number / 2 % 2]);
        state.position[..2].copy_from_slice(&[number / 4 % 2, number / 8 % 3]);
        state.rest[0] = number / 24 % 3;
        state.rest[16] = number / 72 % 3;
        state.wait[0] = number / 216 % 3;
        state.wait[16] = number / 648;
        every_call(session, &state);
    }
}

/// Every call of the dispatcher on a state, of guests and tasks that are there or not.
pub fn every_call(session: &mut Session, state: &Dispatcher) {
    session.compare(Call::Tick(Box::new(*state)));
    for ticks in [0, 1, 2, 5, 1_000_001] {
        session.compare(Call::Run(Box::new(*state), ticks));
    }
    for (id, task) in [(0, 1), (1, 0), (1, 1), (1, 2), (2, 1)] {
        session.compare(Call::Release(Box::new(*state), id, task));
    }
    let pairs = [pair(1, 1), pair(2, 1), pair(1, 2), pair(1, 1) + (1 << 48)];
    for first in pairs {
        for second in pairs {
            let answers = vec![0xA5A5_A5A5; 3];
            session.compare(Call::Sheet(Box::new(*state), vec![first, second], answers));
        }
    }
}

/// The tasks of a full plan again and again: every number of pairs up to more than a sheet holds, with
/// one answer place too few, just enough, and one more.
fn sheets_of_all_lengths(session: &mut Session) {
    let state = Dispatcher::with(full());
    let once = (1..=8).flat_map(|id| (1..=16).map(move |task| pair(id, task)));
    let pairs: Vec<u64> = once.collect::<Vec<u64>>().repeat(3);
    for count in 0..=260_usize {
        for room in [0, count.saturating_sub(1), count, count + 1] {
            let answers = vec![0xA5A5_A5A5; room];
            session.compare(Call::Sheet(
                Box::new(state),
                pairs[..count].to_vec(),
                answers,
            ));
        }
    }
}
