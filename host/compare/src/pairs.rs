//! Every pair of damages, so that every order of refusals is met.

use crate::call::Call;
use crate::session::Session;
use reference::dispatcher::{Dispatcher, pair, place_of};
use reference::plan::{BLOCK, Guest, Plan, blocks_of, seal};
use reference::samples::{plan_a, plan_a_bound};

pub fn compare(session: &mut Session) {
    blocks(session);
    records(session);
    writes(session);
    states(session);
}

/// Each pair out of some damages, a damage with itself included.
pub fn pairs<T: Copy>(of: &[T]) -> impl Iterator<Item = (T, T)> {
    of.iter()
        .flat_map(|first| of.iter().map(|second| (*first, *second)))
}

/// Words of the block at a place of a plan of two guests, most of them wrong in a way of its own: the offset and the
/// word. One of the kinds is the block's own, and it depends on the other word of a pair whether kind 2 is right: the
/// words at 20 have marks, a server in byte 22, and something in byte 23.
pub fn wrong_words(plan: &Plan, place: u32) -> Vec<(usize, u32)> {
    let own = place << 16;
    let guest = plan.guests[place as usize];
    let past = 32 + 12 * guest.tasks as usize;
    let other = plan.guests[1 - place as usize].id;
    let words = [
        (0, own),
        (0, own + 1),
        (0, own + 2),
        (0, own + 3),
        (0, own + 0x0001_0001),
        (4, 0),
        (4, other),
        (8, 0),
        (8, guest.period + 1),
        (12, 0),
        (12, 1_000_001),
        (16, 0),
        (16, 17),
        (20, 0),
        (20, 1),
        (20, 1 << guest.tasks),
        (20, 0x0001_0000),
        (20, 0x0001_0001),
        (20, 0x0002_0000),
        (20, 0x0002_0001),
        (20, 0x0700_0001),
        (20, 0x0701_0000),
        (28, 0x0100_0000),
        (past, 1),
        (220, 0x0100_0000),
        (224, 1),
        (504, 0x0100_0000),
        (32, 0),
        (32, 1_000_001),
        (36, 0),
        (36, guest.every[0] + 1),
        (36, 1_000_001),
        (40, 0),
        (40, guest.every[0] + 1),
    ];
    let start = BLOCK * place as usize;
    words.map(|(at, word)| (start + at, word)).to_vec()
}

fn blocks(session: &mut Session) {
    let plan = plan_a_bound(1);
    let words = [wrong_words(&plan, 0), wrong_words(&plan, 1)].concat();
    for (first, second) in pairs(&words) {
        let mut bytes = blocks_of(&plan);
        for (at, word) in [first, second] {
            bytes[at..at + 4].copy_from_slice(&word.to_le_bytes());
        }
        for sealed in 0..4 {
            let mut bytes = bytes.clone();
            for (place, block) in bytes.chunks_mut(BLOCK).enumerate() {
                if sealed >> place & 1 == 1 {
                    seal(block);
                }
            }
            session.compare(Call::Read(bytes.clone()));
            session.compare(Call::Find(bytes, 9));
        }
    }
}

/// What can be wrong in a record.
pub const WRONG_RECORDS: [fn(&mut Guest); 21] = [
    |_| (),
    |guest| guest.id = 0,
    |guest| guest.id = 7,
    |guest| guest.id = 9,
    |guest| guest.capacity = 0,
    |guest| guest.capacity = guest.period + 1,
    |guest| guest.period = 1_000_001,
    |guest| guest.tasks = 0,
    |guest| guest.tasks = 17,
    |guest| guest.tasks = 65_537,
    |guest| guest.run[0] = 0,
    |guest| guest.run[0] = 1_000_001,
    |guest| guest.every[0] = 1_000_001,
    |guest| guest.every[0] += 1,
    |guest| guest.marks = 1,
    |guest| guest.marks = 2,
    |guest| guest.marks = 0xFFFC,
    |guest| guest.deferrable = 1,
    |guest| guest.deferrable = 256,
    |guest| guest.deadline[0] = 0,
    |guest| guest.deadline[0] = guest.every[0] + 1,
];

fn records(session: &mut Session) {
    for (first, second) in pairs(&WRONG_RECORDS) {
        for (count, places) in [
            (2, [0, 0]),
            (2, [0, 1]),
            (2, [1, 1]),
            (9, [0, 1]),
            (1, [1, 1]),
        ] {
            let mut plan = plan_a();
            plan.count = count;
            first(&mut plan.guests[places[0]]);
            second(&mut plan.guests[places[1]]);
            every_plan_call(session, &plan);
        }
    }
}

/// Every call that takes a plan, of guests and tasks that are there or not.
fn every_plan_call(session: &mut Session, plan: &Plan) {
    session.compare(Call::Check(Box::new(*plan)));
    session.compare(Call::Accept(Box::new(*plan)));
    session.compare(Call::Fresh(Box::new(*plan)));
    session.compare(Call::LeastCapacities(Box::new(*plan)));
    for (id, task) in [(9, 1), (9, 0), (0, 1)] {
        session.compare(Call::GuestVerdict(Box::new(*plan), id));
        session.compare(Call::TaskVerdict(Box::new(*plan), id, task));
        session.compare(Call::SmallestCapacity(Box::new(*plan), id));
    }
}

fn writes(session: &mut Session) {
    for (first, second) in pairs(&WRONG_RECORDS) {
        let mut guest = plan_a().guests[1];
        first(&mut guest);
        second(&mut guest);
        for place in [0, 7, 8] {
            for length in [511, 512, 600] {
                session.compare(Call::Write(Box::new(guest), place, vec![0xA5; length]));
            }
        }
    }
}

/// What can be wrong in a state of plan A, and what is just not.
const STATES: [fn(&mut Dispatcher); 23] = [
    |_| (),
    |state| state.plan.count = 0,
    |state| state.plan.guests[1].run[0] = 0,
    |state| state.left[1] = 8,
    |state| state.left[1] = 9,
    |state| state.left[7] = 1,
    |state| state.position[0] = 4,
    |state| state.position[0] = 5,
    |state| state.rest[place_of(1, 0)] = 10,
    |state| state.rest[place_of(1, 0)] = 11,
    |state| state.rest[place_of(1, 2)] = 1,
    |state| state.wait[place_of(1, 0)] = 50,
    |state| state.wait[place_of(1, 0)] = 51,
    |state| state.wait[127] = 1,
    |state| state.age[place_of(1, 0)] = 1_000_001,
    |state| state.age[place_of(2, 0)] = 1,
    |state| state.plan.guests[1].marks = 1,
    |state| state.plan.guests[1].marks = 0xFFFE,
    |state| state.plan.guests[0].deferrable = 1,
    |state| state.plan.guests[1].deferrable = u32::MAX,
    |state| state.position[1] = 7,
    |state| state.wait[place_of(1, 1)] = 5,
    |state| bound_off_its_start(state),
];

/// Task 2 of guest 9 is bound, has a job, and its guest is within a period.
fn bound_off_its_start(state: &mut Dispatcher) {
    state.plan.guests[1].marks = 2;
    state.position[1] = 7;
    state.rest[place_of(1, 1)] = 5;
}

fn states(session: &mut Session) {
    for (first, second) in pairs(&STATES) {
        let mut state = Dispatcher::with(plan_a());
        first(&mut state);
        second(&mut state);
        session.compare(Call::Tick(Box::new(state)));
        for ticks in [0, 1, 30, 1_000_001] {
            session.compare(Call::Run(Box::new(state), ticks));
        }
        for (id, task) in [(9, 1), (9, 2), (9, 3), (9, 0), (8, 0), (7, 1)] {
            session.compare(Call::Release(Box::new(state), id, task));
        }
        sheets(session, &state);
    }
}

/// Sheets with nothing wrong, with too many pairs, with too few answer places, and with both.
fn sheets(session: &mut Session, state: &Dispatcher) {
    let few = [(9, 1), (9, 1), (9, 2), (8, 1), (9, 3), (7, 1)].map(|(id, task)| pair(id, task));
    let many = few.repeat(43);
    for pairs in [&[], &few[..1], &few, &many[..256], &many[..257]] {
        for room in [0, 1, 5, 6, 255, 256, 257, 260] {
            let answers = vec![0xA5A5_A5A5; room];
            session.compare(Call::Sheet(Box::new(*state), pairs.to_vec(), answers));
        }
    }
}
