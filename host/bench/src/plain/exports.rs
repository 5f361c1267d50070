//! Plain Rust behind the library's own interface: the same structs by value, each call across a border
//! that is not optimised away.
#![allow(improper_ctypes_definitions)] // slices, as the library takes them: a pointer and a length

mod amended;
mod choice;
mod convert;
mod order;
mod salvage;
mod statement;

pub use amended::{
    Located, amended_accept, amended_find, amended_guest_verdict, amended_smallest_capacity,
    amended_task_verdict,
};
pub use choice::{Chosen, least_capacities};
pub use convert::convert;
pub use order::{Ordered, order};
pub use salvage::{Salvaged, salvage};
pub use statement::{Stated, statement, write_log};

use crate::dispatcher::Tick;
use crate::verdict::TaskVerdict;
use crate::{Dispatcher, Guest, Plan, Refusal, block};

#[repr(C)]
pub struct Read {
    pub refusal: Refusal,
    pub plan: Plan,
}

#[repr(C)]
pub struct Verdict {
    pub number: u32,
    pub place: u32,
    pub verdict: u32,
    pub ticks: u32,
}

#[repr(C)]
#[derive(Default)]
pub struct Answer {
    pub kind: u32,
    pub guest: u32,
    pub task: u32,
    pub age: u32,
    pub margin: i32,
}

#[repr(C)]
pub struct Released {
    pub refusal: Refusal,
    pub dispatcher: Dispatcher,
}

#[repr(C)]
pub struct Ticked {
    pub dispatcher: Dispatcher,
    pub refusal: Refusal,
    pub answer: Answer,
}

#[repr(C)]
pub struct Run {
    pub refusal: Refusal,
    pub done: u32,
    pub answer: Answer,
    pub dispatcher: Dispatcher,
}

#[inline(never)]
pub extern "C" fn read(bytes: &[u8]) -> Read {
    let mut plan = Plan::default();
    match block::read_into(bytes, &mut plan) {
        Ok(()) => Read {
            refusal: Refusal::default(),
            plan,
        },
        Err(refusal) => Read {
            refusal,
            plan: Plan::default(),
        },
    }
}

#[inline(never)]
pub extern "C" fn write(guest: Guest, place: u32, buffer: &mut [u8]) -> Refusal {
    block::write(&guest, place, buffer)
        .err()
        .unwrap_or_default()
}

#[inline(never)]
pub extern "C" fn guest_verdict(plan: Plan, id: u32) -> Verdict {
    verdict(plan.guest_verdict(id).map(of_guest))
}

#[inline(never)]
pub extern "C" fn task_verdict(plan: Plan, id: u32, task: u32) -> Verdict {
    verdict(plan.task_verdict(id, task).map(of_task))
}

#[inline(never)]
pub extern "C" fn accept(plan: Plan) -> Verdict {
    verdict(plan.accepted().map(of_plan))
}

#[inline(never)]
pub extern "C" fn smallest_capacity(plan: Plan, id: u32) -> Verdict {
    verdict(plan.smallest_capacity(id).map(|ticks| (1, ticks)))
}

#[inline(never)]
pub extern "C" fn smallest_capacity_upward(plan: Plan, id: u32) -> Verdict {
    verdict(plan.smallest_capacity_upward(id).map(|ticks| (1, ticks)))
}

#[inline(never)]
pub extern "C" fn release(mut dispatcher: Dispatcher, id: u32, task: u32) -> Released {
    let refusal = dispatcher.release(id, task).err().unwrap_or_default();
    Released {
        refusal,
        dispatcher,
    }
}

#[inline(never)]
pub extern "C" fn sheet(
    mut dispatcher: Dispatcher,
    pairs: &[u64],
    answers: &mut [u32],
) -> Released {
    let refusal = dispatcher.sheet(pairs, answers).err().unwrap_or_default();
    Released {
        refusal,
        dispatcher,
    }
}

#[inline(never)]
pub extern "C" fn tick(mut dispatcher: Dispatcher) -> Ticked {
    let (refusal, answer) = match dispatcher.tick() {
        Ok(tick) => (Refusal::default(), answer(tick)),
        Err(refusal) => (refusal, Answer::default()),
    };
    Ticked {
        refusal,
        answer,
        dispatcher,
    }
}

#[inline(never)]
pub extern "C" fn run(mut dispatcher: Dispatcher, ticks: u32) -> Run {
    let (refusal, done, last) = match dispatcher.run(ticks) {
        Ok((done, last)) => (Refusal::default(), done, last),
        Err(refusal) => (refusal, 0, None),
    };
    Run {
        refusal,
        done,
        answer: last.map(answer).unwrap_or_default(),
        dispatcher,
    }
}

fn of_guest(response: Option<u32>) -> (u32, u32) {
    response.map_or((2, 0), |ticks| (1, ticks))
}

fn of_task(found: TaskVerdict) -> (u32, u32) {
    match found {
        TaskVerdict::Met(ticks) => (1, ticks),
        TaskVerdict::UnmetAt(ticks) => (2, ticks),
        TaskVerdict::Unmet => (2, 0),
        TaskVerdict::Unjudged => (3, 0),
    }
}

fn of_plan(accepted: bool) -> (u32, u32) {
    (if accepted { 1 } else { 2 }, 0)
}

/// A verdict's number and its ticks, or the refusal.
fn verdict(result: Result<(u32, u32), Refusal>) -> Verdict {
    let (verdict, ticks) = result.unwrap_or((0, 0));
    let Refusal { number, place } = result.err().unwrap_or_default();
    Verdict {
        number,
        place,
        verdict,
        ticks,
    }
}

fn answer(tick: Tick) -> Answer {
    let (kind, guest, task, age, margin) = match tick {
        Tick::Nobody => (1, 0, 0, 0, 0),
        Tick::Idled(guest) => (2, guest, 0, 0, 0),
        Tick::Ran(guest, task) => (3, guest, task, 0, 0),
        Tick::Finished {
            guest,
            task,
            age,
            margin,
        } => (4, guest, task, age, margin),
    };
    Answer {
        kind,
        guest,
        task,
        age,
        margin,
    }
}
