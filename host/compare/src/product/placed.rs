//! Each call that has a form in place, made by value and in place: both must give one outcome, and leave one plan or
//! state.

use coreshare::{Dispatcher, Ordered, Plan, Released, Run, Start, Ticked, Verdict, exports};

pub fn guest_verdict(plan: &Plan, id: u32) -> Verdict {
    let told = exports::guest_verdict_in(plan, id);
    held(exports::guest_verdict(plan, id), told, plan)
}

pub fn task_verdict(plan: &Plan, id: u32, task: u32) -> Verdict {
    let told = exports::task_verdict_in(plan, id, task);
    held(exports::task_verdict(plan, id, task), told, plan)
}

pub fn accept(plan: &Plan) -> Verdict {
    held(exports::accept(plan), exports::accept_in(plan), plan)
}

pub fn smallest_capacity(plan: &Plan, id: u32) -> Verdict {
    let told = exports::smallest_capacity_in(plan, id);
    held(exports::smallest_capacity(plan, id), told, plan)
}

/// The verdict by value, once that in place is held to it. A verdict does not show its plan, so a difference has to.
fn held(outcome: Verdict, told: Verdict, plan: &Plan) -> Verdict {
    assert_eq!(told, outcome, "a verdict in place, of {plan:?}");
    outcome
}

pub fn order(plan: &Plan, id: u32) -> Ordered {
    let outcome = exports::order(plan, id);
    let mut placed = *plan;
    let refusal = exports::order_in(&mut placed, id);
    assert_eq!(refusal, outcome.refusal, "an order in place");
    let left = match refusal.number {
        0 => outcome.plan,
        _ => *plan,
    };
    assert_eq!(placed, left, "an order in place");
    outcome
}

/// A state that no fresh start leaves, so that what a start in place writes shows.
fn used(plan: &Plan) -> Dispatcher {
    Dispatcher {
        plan: *plan,
        usage: [1; 17],
        left: [2; 8],
        position: [3; 8],
        rest: [4; 128],
        wait: [5; 128],
        age: [6; 128],
    }
}

pub fn fresh(plan: &Plan) -> Start {
    let outcome = exports::fresh(plan);
    let mut placed = used(plan);
    let refusal = exports::fresh_in(&mut placed);
    assert_eq!(refusal, outcome.refusal, "a start in place");
    let left = match refusal.number {
        0 => outcome.dispatcher,
        _ => used(plan),
    };
    assert_eq!(placed, left, "a start in place");
    outcome
}

pub fn release(state: &Dispatcher, id: u32, task: u32) -> Released {
    let outcome = exports::release(state, id, task);
    let mut placed = *state;
    let number = exports::release_in(&mut placed, id, task);
    assert_eq!(number, outcome.refusal.number, "a release in place");
    assert_eq!(placed, outcome.dispatcher, "a release in place");
    outcome
}

pub fn sheet(state: &Dispatcher, pairs: &[u64], answers: &mut [u32]) -> Released {
    let (mut placed, mut told) = (*state, answers.to_vec());
    let number = exports::sheet_in(&mut placed, pairs, &mut told);
    let outcome = exports::sheet(state, pairs, answers);
    assert_eq!(number, outcome.refusal.number, "a sheet in place");
    assert_eq!(placed, outcome.dispatcher, "a sheet in place");
    assert_eq!(told, answers, "a sheet in place");
    outcome
}

pub fn tick(state: &Dispatcher) -> Ticked {
    let outcome = exports::tick(state);
    let mut placed = *state;
    let told = exports::tick_in(&mut placed);
    assert_eq!(told.number, outcome.refusal.number, "a tick in place");
    assert_eq!(told.answer, outcome.answer, "a tick in place");
    assert_eq!(placed, outcome.dispatcher, "a tick in place");
    outcome
}

pub fn run(state: &Dispatcher, ticks: u32) -> Run {
    let outcome = exports::run(state, ticks);
    let mut placed = *state;
    let told = exports::run_in(&mut placed, ticks);
    assert_eq!(told.number, outcome.refusal.number, "a run in place");
    assert_eq!(told.done, outcome.done, "a run in place");
    assert_eq!(told.answer, outcome.answer, "a run in place");
    assert_eq!(placed, outcome.dispatcher, "a run in place");
    outcome
}
