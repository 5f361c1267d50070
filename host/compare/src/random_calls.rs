//! Random calls of every export.

use crate::blocks;
use crate::call::Call;
use crate::plans::{self, FULL, LARGE, MEDIUM, SMALL, Size, TINY, some_id, some_task};
use crate::session::Session;
use crate::sheets;
use crate::states;
use reference::dispatcher::Dispatcher;
use reference::plan::{MOST_GUESTS, Plan, blocks_of};
use reference::samples::periodic;
use reference::verdict::works;

/// One round: some of each kind.
pub fn round(session: &mut Session) {
    for size in [TINY, TINY, TINY, SMALL, SMALL] {
        let plan = plans::plan(&mut session.random, size);
        every_verdict(session, &plan);
    }
    for size in [FULL, MEDIUM] {
        let plan = plans::plan(&mut session.random, size);
        some_verdicts(session, &plan);
    }
    for _ in 0..10 {
        hostile_records(session);
        bytes(session);
        write(session);
        state_calls(session);
    }
    if session.random.once_in(60) {
        large(session);
    }
    if !session.scans && session.random.once_in(100) {
        large_capacity(session);
    }
}

/// Every verdict of a plan that is well formed, an order for each guest's tasks, its least capacities, and its start.
pub fn every_verdict(session: &mut Session, plan: &Plan) {
    session.compare(Call::Check(Box::new(*plan)));
    session.compare(Call::Accept(Box::new(*plan)));
    session.compare(Call::Fresh(Box::new(*plan)));
    session.compare(Call::LeastCapacities(Box::new(*plan)));
    for guest in plan.listed() {
        session.compare(Call::GuestVerdict(Box::new(*plan), guest.id));
        session.compare(Call::SmallestCapacity(Box::new(*plan), guest.id));
        session.compare(Call::Order(Box::new(*plan), guest.id));
        for task in 1..=guest.tasks {
            session.compare(Call::TaskVerdict(Box::new(*plan), guest.id, task));
        }
    }
}

/// A few verdicts of a plan.
fn some_verdicts(session: &mut Session, plan: &Plan) {
    session.compare(Call::Accept(Box::new(*plan)));
    for _ in 0..4 {
        let id = some_id(&mut session.random, plan);
        let task = some_task(&mut session.random, plan, id);
        session.compare(Call::GuestVerdict(Box::new(*plan), id));
        session.compare(Call::TaskVerdict(Box::new(*plan), id, task));
    }
    if session.random.once_in(4) {
        let id = some_id(&mut session.random, plan);
        session.compare(Call::SmallestCapacity(Box::new(*plan), id));
    }
}

fn hostile_records(session: &mut Session) {
    let size = session.random.pick(&[TINY, SMALL, FULL]);
    let plan = plans::hostile(&mut session.random, size);
    let id = some_id(&mut session.random, &plan);
    let task = some_task(&mut session.random, &plan, id);
    session.compare(Call::Check(Box::new(plan)));
    session.compare(Call::Fresh(Box::new(plan)));
    // A plan that came out well formed may have long periods: it is only judged if it is refused.
    if reference::plan::check(&plan).number != 0 {
        session.compare(Call::Accept(Box::new(plan)));
        session.compare(Call::GuestVerdict(Box::new(plan), id));
        session.compare(Call::TaskVerdict(Box::new(plan), id, task));
        session.compare(Call::SmallestCapacity(Box::new(plan), id));
        session.compare(Call::LeastCapacities(Box::new(plan)));
    }
}

fn bytes(session: &mut Session) {
    let random = &mut session.random;
    let size = random.pick(&[TINY, SMALL, FULL, LARGE]);
    let plan = plans::plan(random, size);
    let id = some_id(random, &plan);
    let bytes = match random.below(8) {
        0 => blocks_of(&plan),
        1 => blocks::noise(random),
        _ => blocks::damaged(random, &plan),
    };
    session.compare(Call::Read(bytes.clone()));
    session.compare(Call::Find(bytes, id));
}

fn write(session: &mut Session) {
    let random = &mut session.random;
    let size = random.pick(&[SMALL, FULL, LARGE]);
    let plan = match random.below(3) {
        0 => plans::hostile(random, size),
        _ => plans::plan(random, size),
    };
    let guest = plan.guests[random.below(MOST_GUESTS)];
    let place = match random.below(6) {
        0 => random.edge(),
        _ => random.from(0, 8),
    };
    let any = random.below(1024);
    let length = random.pick(&[512, 512, 513, 511, 700, 4096, any]);
    let filler = random.next() as u8;
    let buffer = (0..length)
        .map(|at| filler.wrapping_add(at as u8))
        .collect();
    session.compare(Call::Write(Box::new(guest), place, buffer));
}

/// Calls of the dispatcher on a state that no history may have reached; now and then it holds a Deferrable guest.
fn state_calls(session: &mut Session) {
    let random = &mut session.random;
    let size = random.pick(&[TINY, SMALL, FULL, LARGE]);
    let plan = plans::plan(random, size);
    let plan = if random.once_in(8) {
        plan
    } else {
        periodic(plan)
    };
    let mut state = states::in_range(random, plan);
    if random.once_in(2) {
        state = states::hostile(random, &state);
    }
    let ticks = match random.below(8) {
        0 => random.edge() | 1_000_001,
        _ => random.from(0, 40),
    };
    any_calls(session, &state, ticks);
}

/// A tick, a run, a release and a sheet of one state.
pub fn any_calls(session: &mut Session, state: &Dispatcher, ticks: u32) {
    let id = some_id(&mut session.random, &state.plan);
    let task = some_task(&mut session.random, &state.plan, id);
    session.compare(Call::Tick(Box::new(*state)));
    session.compare(Call::Run(Box::new(*state), ticks));
    session.compare(Call::Release(Box::new(*state), id, task));
    let sheet = sheets::sheet(&mut session.random, state);
    session.compare(sheet);
}

/// A plan with numbers up to the largest: the reference takes its time here.
fn large(session: &mut Session) {
    let guests = session.random.from(1, 8);
    let tasks = session.random.from(1, 16);
    let size = Size {
        guests,
        tasks,
        ..LARGE
    };
    let plan = plans::plan(&mut session.random, size);
    let id = some_id(&mut session.random, &plan);
    let task = some_task(&mut session.random, &plan, id);
    session.compare(Call::GuestVerdict(Box::new(plan), id));
    session.compare(Call::TaskVerdict(Box::new(plan), id, task));
    let state = states::in_range(&mut session.random, periodic(plan));
    session.compare(Call::Run(Box::new(state), 1_000_000));
}

/// The smallest capacity among a million cannot be scanned for: the library's is tried at a few places.
fn large_capacity(session: &mut Session) {
    let size = Size {
        guests: 3,
        tasks: 3,
        ..LARGE
    };
    let plan = &plans::plan(&mut session.random, size);
    let guest = session.random.below(plan.listed().len());
    let found = (session.subject.smallest_capacity)(plan, plan.guests[guest].id);
    let period = plan.guests[guest].period;
    let mut held = true;
    let mut below = period;
    if found.number == 0 {
        held = found.ticks <= period && works(plan, guest, found.ticks);
        below = found.ticks - 1;
    }
    for capacity in [
        below,
        session.random.from(0, below),
        session.random.from(0, below),
    ] {
        held &= capacity == 0 || !works(plan, guest, capacity);
    }
    if session.note("large capacities tried", held) {
        let plan = crate::show::plan(plan);
        println!("DIFFERENT: smallest capacity of guest {guest}: {found:?} of {plan}");
    }
}
