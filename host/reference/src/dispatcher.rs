//! The dispatcher: its state, release, tick and run, and the sheet of releases.

mod sheet;
mod step;

#[cfg(test)]
mod tests;

use crate::plan::{
    Guest, LONGEST, MOST_GUESTS, MOST_TASKS, Plan, Refusal, task_place, well_formed,
};
use step::step;

pub use sheet::{LONGEST_SHEET, pair, parts, sheet};

/// The most tasks in a plan.
pub const PLACES: usize = MOST_GUESTS * MOST_TASKS;

/// The most ticks of one run.
pub const LONGEST_RUN: u32 = 1_000_000;

/// An answer's kinds.
pub const NO_ANSWER: u32 = 0;
pub const NOBODY: u32 = 1;
pub const IDLED: u32 = 2;
pub const RAN: u32 = 3;
pub const FINISHED: u32 = 4;

/// Where `usage` keeps the ticks that the first guest idled away, the next guests' after it.
pub const IDLED_FROM: usize = MOST_GUESTS;

/// Where `usage` keeps the ticks that no guest had.
pub const NOBODYS: usize = 2 * MOST_GUESTS;

/// The numbers of `usage`.
pub const COUNTED: usize = NOBODYS + 1;

/// The plan's records; for each guest the capacity left and the position in its period; and run
/// left, wait and age for each task, task `t` of guest `g` at `16 * g + t`. Beside them where the
/// ticks went: for each guest its ticks, then for each how many of them it idled away, then the
/// ticks that no guest had.
#[derive(Clone, Copy, Debug, PartialEq, Eq)]
pub struct Dispatcher {
    pub plan: Plan,
    pub left: [u32; MOST_GUESTS],
    pub position: [u32; MOST_GUESTS],
    pub rest: [u32; PLACES],
    pub wait: [u32; PLACES],
    pub age: [u32; PLACES],
    pub usage: [u64; COUNTED],
}

/// What had a tick: the guest by its id, the task by its number from 1; the age and the margin of a
/// finished job. What a kind does not name is 0.
#[derive(Clone, Copy, Debug, Default, PartialEq, Eq)]
pub struct Answer {
    pub kind: u32,
    pub guest: u32,
    pub task: u32,
    pub age: u32,
    pub margin: i32,
}

#[derive(Clone, Copy, Debug, PartialEq, Eq)]
pub struct Start {
    pub refusal: Refusal,
    pub dispatcher: Dispatcher,
}

#[derive(Clone, Copy, Debug, PartialEq, Eq)]
pub struct Released {
    pub refusal: Refusal,
    pub dispatcher: Dispatcher,
}

#[derive(Clone, Copy, Debug, PartialEq, Eq)]
pub struct Ticked {
    pub refusal: Refusal,
    pub answer: Answer,
    pub dispatcher: Dispatcher,
}

#[derive(Clone, Copy, Debug, PartialEq, Eq)]
pub struct Run {
    pub refusal: Refusal,
    pub done: u32,
    pub answer: Answer,
    pub dispatcher: Dispatcher,
}

/// Where the dispatcher keeps the numbers of a task.
pub fn place_of(guest: usize, task: usize) -> usize {
    guest * MOST_TASKS + task
}

impl Dispatcher {
    /// No job, no wait and no age in any place, all positions 0, no capacity left, no tick counted,
    /// and the records as handed over.
    pub fn with(plan: Plan) -> Dispatcher {
        Dispatcher {
            plan,
            left: [0; MOST_GUESTS],
            position: [0; MOST_GUESTS],
            rest: [0; PLACES],
            wait: [0; PLACES],
            age: [0; PLACES],
            usage: [0; COUNTED],
        }
    }
}

/// Fresh start: the records' order, then 23; a refused start gives a state that is zero throughout.
pub fn fresh(plan: &Plan) -> Start {
    let result = may_start(plan);
    let records = if result.is_ok() {
        *plan
    } else {
        Plan::default()
    };
    Start {
        refusal: Refusal::of(&result),
        dispatcher: Dispatcher::with(records),
    }
}

/// After the other checks on the plan comes 23, a Deferrable guest.
fn may_start(plan: &Plan) -> Result<(), Refusal> {
    well_formed(plan)?;
    match plan.has_deferrable() {
        true => Err(Refusal::new(23, 0)),
        false => Ok(()),
    }
}

/// Release: 14, 7, 8, 17, 9, 10.
pub fn release(state: &Dispatcher, id: u32, task: u32) -> Released {
    let result = released(state, id, task);
    Released {
        refusal: Refusal::of(&result),
        dispatcher: result.unwrap_or(*state),
    }
}

/// Tick: 14.
pub fn tick(state: &Dispatcher) -> Ticked {
    let result = in_range(state);
    let mut next = *state;
    let answer = match result {
        Ok(()) => step(&mut next),
        Err(_) => Answer::default(),
    };
    Ticked {
        refusal: Refusal::of(&result),
        answer,
        dispatcher: next,
    }
}

/// Run: 14, 13. It stops after the first tick that finishes a job or when the number is used up.
pub fn run(state: &Dispatcher, ticks: u32) -> Run {
    let result = may_run(state, ticks);
    let mut outcome = Run {
        refusal: Refusal::of(&result),
        done: 0,
        answer: Answer::default(),
        dispatcher: *state,
    };
    if result.is_err() {
        return outcome;
    }
    while outcome.done < ticks && outcome.answer.kind != FINISHED {
        outcome.answer = step(&mut outcome.dispatcher);
        outcome.done += 1;
    }
    outcome
}

fn may_run(state: &Dispatcher, ticks: u32) -> Result<(), Refusal> {
    in_range(state)?;
    if ticks > LONGEST_RUN {
        return Err(Refusal::new(13, 0));
    }
    Ok(())
}

fn released(state: &Dispatcher, id: u32, task: u32) -> Result<Dispatcher, Refusal> {
    in_range(state)?;
    let guest = state.plan.place_of(id)?;
    let own = &state.plan.guests[guest];
    let task = task_place(own, task)?;
    let place = place_of(guest, task);
    if own.is_bound(task) && state.position[guest] != 0 {
        return Err(Refusal::new(17, 0));
    }
    if state.wait[place] > 0 {
        return Err(Refusal::new(9, 0));
    }
    if state.rest[place] != 0 {
        return Err(Refusal::new(10, 0));
    }
    let mut next = *state;
    next.rest[place] = own.charged_run(task);
    next.wait[place] = own.every[task];
    next.age[place] = 0;
    Ok(next)
}

/// Refusal 14: a state whose plan fails the records' order or holds a Deferrable guest, or with a number outside its
/// range, or with anything but 0 past its guests and tasks. It ignores where the ticks went.
fn in_range(state: &Dispatcher) -> Result<(), Refusal> {
    let plan_in_range = || well_formed(&state.plan).is_ok() && !state.plan.has_deferrable();
    let guests_in_range = || (0..MOST_GUESTS).all(|guest| guest_in_range(state, guest));
    if plan_in_range() && guests_in_range() {
        Ok(())
    } else {
        Err(Refusal::new(14, 0))
    }
}

fn guest_in_range(state: &Dispatcher, guest: usize) -> bool {
    let (left, position) = (state.left[guest], state.position[guest]);
    let mut tasks = 0..MOST_TASKS;
    match state.plan.listed().get(guest) {
        Some(own) => {
            left <= own.capacity
                && position < own.period
                && tasks.all(|task| task_in_range(state, own, guest, task))
        }
        None => {
            left == 0
                && position == 0
                && tasks.all(|task| task_is_zero(state, place_of(guest, task)))
        }
    }
}

fn task_in_range(state: &Dispatcher, own: &Guest, guest: usize, task: usize) -> bool {
    let place = place_of(guest, task);
    if task >= own.tasks as usize {
        return task_is_zero(state, place);
    }
    state.rest[place] <= own.charged_run(task)
        && state.wait[place] <= own.every[task]
        && state.age[place] <= LONGEST
}

fn task_is_zero(state: &Dispatcher, place: usize) -> bool {
    state.rest[place] == 0 && state.wait[place] == 0 && state.age[place] == 0
}
