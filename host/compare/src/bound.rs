//! Small inputs with marks, all of them: blocks of both kinds, verdicts and releases of bound tasks.

use crate::call::Call;
use crate::exhaustive::{every_call, flipped_bits, servers, tasks};
use crate::random_calls::every_verdict;
use crate::session::Session;
use reference::dispatcher::{Dispatcher, pair};
use reference::plan::{BLOCK, Guest, MOST_TASKS, Plan, Refusal, blocks_of, check, seal};
use reference::samples::plan_a_bound;

pub fn compare(session: &mut Session) {
    for marks in 0..8 {
        every_verdict(session, &plan_a_bound(marks));
    }
    flipped_bits(session, &plan_a_bound(2));
    kinds_and_marks(session);
    records_with_each_mark(session);
    multiples(session);
    plans_of_two_tasks(session);
    plans_of_three_tasks(session);
    states_of_two_tasks(session);
}

/// Each mark by itself, two of them together, all of them, and none.
pub(crate) fn each_marks() -> Vec<u16> {
    let mut all = vec![0, u16::MAX, 0x5555];
    for task in 0..MOST_TASKS {
        all.extend([1 << task, 1 | 1 << task]);
    }
    all
}

/// A guest with so many tasks, each of which may be bound.
fn with_tasks(count: usize, marks: u16) -> Guest {
    Guest {
        marks,
        ..Guest::new(5, 2, 4, &vec![[1, 40, 40]; count])
    }
}

/// Blocks with each number of tasks, each kind and each marks, whatever goes with what; and with something in each
/// byte behind the marks.
fn kinds_and_marks(session: &mut Session) {
    for count in 1..=MOST_TASKS {
        let right = blocks_of(&Plan::new(&[with_tasks(count, 0)]));
        for kind in [0, 1, 2, 3, 257, 258] {
            for marks in each_marks() {
                let mut block = right.clone();
                put(&mut block, 0, kind);
                put(&mut block, 20, marks);
                read_and_find(session, &mut block);
            }
            for at in 22..32 {
                let mut block = right.clone();
                put(&mut block, 0, kind);
                block[at] = 1;
                read_and_find(session, &mut block);
                block[20] = 1;
                read_and_find(session, &mut block);
            }
        }
    }
}

pub(crate) fn put(block: &mut [u8], at: usize, value: u16) {
    block[at..at + 2].copy_from_slice(&value.to_le_bytes());
}

/// Reads a block with its check made anew, and looks for its guest.
pub(crate) fn read_and_find(session: &mut Session, block: &mut [u8]) {
    seal(block);
    session.compare(Call::Read(block.to_vec()));
    session.compare(Call::Find(block.to_vec(), 5));
}

/// Records with each number of tasks and each marks, past the tasks too: written, and with one task that cannot be
/// bound.
fn records_with_each_mark(session: &mut Session) {
    for count in 1..=MOST_TASKS {
        for marks in each_marks() {
            let mut guest = with_tasks(count, marks);
            guest.every[count..].fill(41);
            written(session, guest);
            session.compare(Call::Fresh(Box::new(Plan::new(&[guest]))));
            for task in [0, count / 2, count - 1] {
                let mut wrong = guest;
                wrong.every[task] = 41;
                written(session, wrong);
                session.compare(Call::Check(Box::new(Plan::new(&[wrong]))));
            }
        }
    }
}

pub(crate) fn written(session: &mut Session, guest: Guest) {
    session.compare(Call::Write(Box::new(guest), 3, vec![0xA5; BLOCK + 1]));
}

/// Each guest's period with each task's period up to more than twice it, bound, in records and in a block.
fn multiples(session: &mut Session) {
    for period in 1..=9 {
        for every in 1..=20 {
            let guest = Guest::new(5, 1, period, &[[1, 40, 40], [1, every, every]]);
            for marks in [0, 2, 4] {
                let plan = Plan::new(&[Guest { marks, ..guest }]);
                every_verdict(session, &plan);
                let state = Dispatcher::with(plan);
                session.compare(Call::Tick(Box::new(state)));
                session.compare(Call::Run(Box::new(state), 1));
                session.compare(Call::Release(Box::new(state), 5, 1));
                session.compare(Call::Sheet(Box::new(state), vec![], vec![]));
                written(session, plan.guests[0]);
                read_and_find(session, &mut blocks_of(&plan));
            }
        }
    }
}

/// Two tasks in the lower of two guests, with each of their marks that is not refused.
fn plans_of_two_tasks(session: &mut Session) {
    for [above, long] in servers(3) {
        let upper = Guest::new(1, above, long, &[[1, 9, 9]]);
        for [capacity, period] in servers(4) {
            for every in 1..=8 {
                for lower in tasks(2, 8) {
                    let both = [[1, every, every], lower];
                    for marks in 1..4 {
                        let guest = Guest::new(2, capacity, period, &both);
                        two_tasks(session, Plan::new(&[upper, Guest { marks, ..guest }]));
                    }
                }
            }
        }
    }
}

fn two_tasks(session: &mut Session, plan: Plan) {
    if check(&plan) == Refusal::NONE {
        session.compare(Call::TaskVerdict(Box::new(plan), 2, 2));
        session.compare(Call::SmallestCapacity(Box::new(plan), 2));
        session.compare(Call::Accept(Box::new(plan)));
    }
}

/// Three tasks with each of their marks, and marks past them.
fn plans_of_three_tasks(session: &mut Session) {
    for [capacity, period] in servers(5) {
        for [first, second] in [[1, 1], [1, 2], [2, 1], [2, 3], [3, 2]] {
            let every = [first * period, second * period];
            let tasks = [[1, every[0], every[0]], [1, every[1], every[1]]];
            let last = [1, 6 * period, 6 * period];
            for marks in 0..16 {
                let guest = Guest::new(1, capacity, period, &[tasks[0], tasks[1], last]);
                every_verdict(session, &Plan::new(&[Guest { marks, ..guest }]));
            }
        }
    }
}

/// Every state without ages of a guest 2/3 with tasks 1/3/3 and 1/6/6, with each of their marks, and one past them;
/// the guest below it is at any position.
fn states_of_two_tasks(session: &mut Session) {
    let guest = Guest::new(1, 2, 3, &[[1, 3, 3], [1, 6, 6]]);
    let below = Guest::new(2, 1, 5, &[[1, 5, 5]]);
    for marks in 0..8 {
        let fresh = Dispatcher::with(Plan::new(&[Guest { marks, ..guest }, below]));
        for number in 0..3 * 2 * 2 * 4 * 7 {
            let mut state = fresh;
            state.position[..2].copy_from_slice(&[number % 3, number % 5]);
            state.rest[..2].copy_from_slice(&[number / 3 % 2, number / 6 % 2]);
            state.wait[..2].copy_from_slice(&[number / 12 % 4, number / 48]);
            every_call(session, &state);
            session.compare(Call::Release(Box::new(state), 1, 3));
            session.compare(Call::Sheet(Box::new(state), vec![pair(1, 3)], vec![0]));
        }
    }
}
