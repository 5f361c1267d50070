//! One tick of a state that is in its ranges, sentence by sentence.

use super::{Answer, Dispatcher, FINISHED, IDLED, IDLED_FROM, NOBODY, NOBODYS, RAN, place_of};
use crate::plan::Guest;

/// One tick, in order.
pub fn step(state: &mut Dispatcher) -> Answer {
    let at_start = state.rest;
    fill(state);
    let guest = serve(state);
    let task = guest.and_then(|guest| work(state, guest));
    grow(state, &at_start);
    wait(state);
    advance(state);
    count(state, guest, task);
    answer(state, guest, task)
}

/// Each guest at position 0 gets its full capacity, what was left being dropped.
fn fill(state: &mut Dispatcher) {
    for guest in 0..state.plan.listed().len() {
        if state.position[guest] == 0 {
            state.left[guest] = state.plan.guests[guest].capacity;
        }
    }
}

/// The first guest with capacity left has the tick and loses one.
fn serve(state: &mut Dispatcher) -> Option<usize> {
    let mut guests = 0..state.plan.listed().len();
    let guest = guests.find(|guest| state.left[*guest] > 0)?;
    state.left[guest] -= 1;
    Some(guest)
}

/// Inside it the first task with run left loses one; if none has any the tick is idled away.
fn work(state: &mut Dispatcher, guest: usize) -> Option<usize> {
    let mut tasks = state.plan.guests[guest].places();
    let task = tasks.find(|task| state.rest[place_of(guest, *task)] > 0)?;
    state.rest[place_of(guest, task)] -= 1;
    Some(task)
}

/// The age of every job unfinished at the tick's start rises by one, stopping at 1,000,000.
fn grow(state: &mut Dispatcher, at_start: &[u32]) {
    for (age, rest) in state.age.iter_mut().zip(at_start) {
        if *rest > 0 && *age < 1_000_000 {
            *age += 1;
        }
    }
}

/// Each wait above 0 falls by one.
fn wait(state: &mut Dispatcher) {
    for wait in &mut state.wait {
        if *wait > 0 {
            *wait -= 1;
        }
    }
}

/// Each position moves on and returns to 0 at T.
fn advance(state: &mut Dispatcher) {
    for guest in 0..state.plan.listed().len() {
        state.position[guest] += 1;
        if state.position[guest] == state.plan.guests[guest].period {
            state.position[guest] = 0;
        }
    }
}

/// For each guest its ticks and how many of them it idled away, and one number for ticks that no
/// guest had, all 64-bit and wrapping.
fn count(state: &mut Dispatcher, guest: Option<usize>, task: Option<usize>) {
    let mut more = |at: usize| state.usage[at] = state.usage[at].wrapping_add(1);
    match (guest, task) {
        (None, _) => more(NOBODYS),
        (Some(guest), Some(_)) => more(guest),
        (Some(guest), None) => {
            more(guest);
            more(IDLED_FROM + guest);
        }
    }
}

/// The guest that had the tick or none, the task or none, and for a finished job its age.
fn answer(state: &Dispatcher, guest: Option<usize>, task: Option<usize>) -> Answer {
    let Some(guest) = guest else {
        return Answer {
            kind: NOBODY,
            ..Answer::default()
        };
    };
    let own = &state.plan.guests[guest];
    let Some(task) = task else {
        return Answer {
            kind: IDLED,
            guest: own.id,
            ..Answer::default()
        };
    };
    let ran = Answer {
        kind: RAN,
        guest: own.id,
        task: task as u32 + 1,
        ..Answer::default()
    };
    match state.rest[place_of(guest, task)] {
        0 => finished(ran, own, task, state.age[place_of(guest, task)]),
        _ => ran,
    }
}

/// Its margin is the deadline less the age, negative when late.
fn finished(ran: Answer, own: &Guest, task: usize, age: u32) -> Answer {
    Answer {
        kind: FINISHED,
        age,
        margin: own.deadline[task] as i32 - age as i32,
        ..ran
    }
}
