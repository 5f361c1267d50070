//! Makes an input smaller as long as the two sides still differ.

mod amended;
mod files;
mod sheets;
mod statements;
mod states;

use crate::call::Call;
use reference::dispatcher::Dispatcher;
use reference::plan::{BLOCK, Guest, MOST_GUESTS, MOST_TASKS, Plan, seal};
use states::smaller_states;
use std::time::{Duration, Instant};

/// How long to try.
const PATIENCE: Duration = Duration::from_secs(5);

/// The smallest call that was found to fail as this one does.
pub fn shrink(call: &Call, fails: impl Fn(&Call) -> bool) -> Call {
    let end = Instant::now() + PATIENCE;
    let mut best = call.clone();
    while let Some(next) = smaller(&best)
        .into_iter()
        .take_while(|_| Instant::now() < end)
        .find(|next| fails(next))
    {
        best = next;
    }
    best
}

/// Calls with a smaller input.
fn smaller(call: &Call) -> Vec<Call> {
    match call {
        Call::Read(bytes) => each(fewer_bytes(bytes), Call::Read),
        Call::Find(bytes, id) => each(fewer_bytes(bytes), |bytes| Call::Find(bytes, *id)),
        Call::Write(guest, place, buffer) => smaller_writes(guest, *place, buffer),
        Call::Check(plan) => of_plan(plan, Call::Check),
        Call::GuestVerdict(plan, id) => of_plan(plan, |plan| Call::GuestVerdict(plan, *id)),
        Call::TaskVerdict(plan, id, task) => smaller_task_verdicts(plan, *id, *task),
        Call::Accept(plan) => of_plan(plan, Call::Accept),
        Call::SmallestCapacity(plan, id) => of_plan(plan, |plan| Call::SmallestCapacity(plan, *id)),
        Call::Fresh(plan) => of_plan(plan, Call::Fresh),
        Call::Release(state, id, task) => of_state(state, |state| Call::Release(state, *id, *task)),
        Call::Sheet(state, pairs, answers) => sheets::smaller(state, pairs, answers),
        Call::Tick(state) => of_state(state, Call::Tick),
        Call::Run(state, ticks) => smaller_runs(state, *ticks),
        Call::Amended(of, question) => {
            each(amended::smaller(of), |of| Call::Amended(of, *question))
        }
        Call::State(running, of) => statements::smaller(running, of),
        Call::WriteLog(jobs, buffer) => statements::smaller_writes(jobs, buffer),
        Call::Salvage(file, out) => files::smaller(file, out, Call::Salvage),
        Call::Order(plan, id) => of_plan(plan, |plan| Call::Order(plan, *id)),
        Call::Convert(plan, out) => files::smaller(plan, out, Call::Convert),
        Call::LeastCapacities(plan) => of_plan(plan, Call::LeastCapacities),
    }
}

fn each<T>(inputs: Vec<T>, call: impl Fn(T) -> Call) -> Vec<Call> {
    inputs.into_iter().map(call).collect()
}

fn of_plan(plan: &Plan, call: impl Fn(Box<Plan>) -> Call) -> Vec<Call> {
    each(smaller_plans(plan), |plan| call(Box::new(plan)))
}

fn of_state(state: &Dispatcher, call: impl Fn(Box<Dispatcher>) -> Call) -> Vec<Call> {
    each(smaller_states(state), |state| call(Box::new(state)))
}

fn smaller_task_verdicts(plan: &Plan, id: u32, task: u32) -> Vec<Call> {
    let mut calls = of_plan(plan, |plan| Call::TaskVerdict(plan, id, task));
    // Taking a task away above this one moves it up, so both are tried together.
    for fewer in smaller_plans(plan) {
        calls.push(Call::TaskVerdict(
            Box::new(fewer),
            id,
            task.saturating_sub(1),
        ));
    }
    calls
}

fn smaller_runs(state: &Dispatcher, ticks: u32) -> Vec<Call> {
    let mut calls = each(smaller_numbers(ticks), |ticks| {
        Call::Run(Box::new(*state), ticks)
    });
    calls.extend(of_state(state, |state| Call::Run(state, ticks)));
    calls
}

fn smaller_writes(guest: &Guest, place: u32, buffer: &[u8]) -> Vec<Call> {
    let write =
        |guest: &Guest, place, buffer: &[u8]| Call::Write(Box::new(*guest), place, buffer.to_vec());
    let mut calls = each(smaller_guests(guest), |guest| write(&guest, place, buffer));
    calls.extend(each(smaller_numbers(place), |place| {
        write(guest, place, buffer)
    }));
    calls.extend(each(smaller_numbers(buffer.len() as u32), |length| {
        write(guest, place, &buffer[..length as usize])
    }));
    calls
}

/// Numbers below this one to try in its place.
fn smaller_numbers(number: u32) -> Vec<u32> {
    let mut numbers = vec![0, 1, number / 2, number.saturating_sub(1)];
    numbers.retain(|smaller| *smaller < number);
    numbers.dedup();
    numbers
}

/// Copies of a value with one of its numbers made smaller.
fn with_a_smaller_number<T: Copy>(value: &T, numbers: fn(&mut T) -> Vec<&mut u32>) -> Vec<T> {
    let mut all = Vec::new();
    let mut copy = *value;
    let now: Vec<u32> = numbers(&mut copy)
        .into_iter()
        .map(|number| *number)
        .collect();
    for (at, number) in now.iter().enumerate() {
        for smaller in smaller_numbers(*number) {
            let mut changed = *value;
            *numbers(&mut changed)[at] = smaller;
            all.push(changed);
        }
    }
    all
}

/// The bytes with some less at the end, or with one made zero, its block's check kept or made anew.
fn fewer_bytes(bytes: &[u8]) -> Vec<Vec<u8>> {
    let length = bytes.len();
    let shorter = [
        length / 2,
        length.saturating_sub(BLOCK),
        length.saturating_sub(1),
    ];
    let mut all: Vec<Vec<u8>> = shorter
        .into_iter()
        .filter(|shorter| *shorter < length)
        .map(|shorter| bytes[..shorter].to_vec())
        .collect();
    for at in (0..length).filter(|at| bytes[*at] != 0 && at % BLOCK < 508) {
        let mut zeroed = bytes.to_vec();
        zeroed[at] = 0;
        all.push(zeroed.clone());
        if let Some(block) = zeroed.chunks_exact_mut(BLOCK).nth(at / BLOCK) {
            seal(block);
            all.push(zeroed);
        }
    }
    all
}

/// The blocks but for one.
fn without_block(blocks: &[u8], gone: usize) -> Vec<u8> {
    [&blocks[..BLOCK * gone], &blocks[BLOCK * (gone + 1)..]].concat()
}

fn smaller_plans(plan: &Plan) -> Vec<Plan> {
    let mut all: Vec<Plan> = (0..listed(plan))
        .map(|gone| without_guest(plan, gone))
        .collect();
    for (at, guest) in plan.guests.iter().enumerate() {
        let mut put = |guest: Guest| {
            let mut changed = *plan;
            changed.guests[at] = guest;
            all.push(changed);
        };
        if *guest != Guest::default() {
            put(Guest::default());
        }
        smaller_guests(guest).into_iter().for_each(put);
    }
    all
}

fn listed(plan: &Plan) -> usize {
    (plan.count as usize).min(MOST_GUESTS)
}

fn without_guest(plan: &Plan, gone: usize) -> Plan {
    let mut fewer = *plan;
    fewer.guests.copy_within(gone + 1.., gone);
    fewer.guests[MOST_GUESTS - 1] = Guest::default();
    fewer.count -= 1;
    fewer
}

fn smaller_guests(guest: &Guest) -> Vec<Guest> {
    let tasks = (guest.tasks as usize).min(MOST_TASKS);
    let mut all: Vec<Guest> = (0..tasks).map(|gone| without_task(guest, gone)).collect();
    all.extend(with_a_smaller_number(guest, guest_numbers));
    all.extend(
        smaller_numbers(guest.charge.into())
            .into_iter()
            .map(|charge| Guest {
                charge: charge as u16,
                ..*guest
            }),
    );
    all.extend(with_a_mark_less(guest));
    all
}

/// The guest with one of its marks taken away.
fn with_a_mark_less(guest: &Guest) -> impl Iterator<Item = Guest> {
    let set = (0..MOST_TASKS).filter(|task| guest.is_bound(*task));
    set.map(|task| Guest {
        marks: guest.marks & !(1 << task),
        ..*guest
    })
}

fn guest_numbers(guest: &mut Guest) -> Vec<&mut u32> {
    let head = [
        &mut guest.id,
        &mut guest.capacity,
        &mut guest.period,
        &mut guest.tasks,
        &mut guest.deferrable,
    ];
    let entries = [&mut guest.run, &mut guest.every, &mut guest.deadline];
    head.into_iter()
        .chain(entries.into_iter().flatten())
        .collect()
}

fn without_task(guest: &Guest, gone: usize) -> Guest {
    let mut fewer = *guest;
    fewer.tasks -= 1;
    let above = (1 << gone) - 1;
    fewer.marks = (guest.marks & above) | (guest.marks >> 1 & !above);
    for column in [&mut fewer.run, &mut fewer.every, &mut fewer.deadline] {
        column.copy_within(gone + 1.., gone);
        column[MOST_TASKS - 1] = 0;
    }
    fewer
}
