//! Deferrable guests handed to the writer, to a fresh start and in a state: each of them at every place, and beside
//! everything else that can be wrong.

use super::{NUMBERS, TWO_KINDS, of_kinds};
use crate::call::Call;
use crate::exhaustive::every_call;
use crate::pairs::WRONG_RECORDS;
use crate::session::Session;
use reference::dispatcher::{COUNTED, Dispatcher, place_of, release, tick};
use reference::plan::{BLOCK, MOST_GUESTS, Plan};
use reference::samples::{full, plan_a};

pub fn compare(session: &mut Session) {
    writes(session);
    starts_with_faults(session);
    starts_of_a_full_plan(session);
    states_of_a_full_plan(session);
    states_of_a_history(session);
}

/// Deferrable guests with each fault of a record, at places in range and out of it, with buffers' lengths about 512.
fn writes(session: &mut Session) {
    for number in NUMBERS {
        for fault in WRONG_RECORDS {
            let mut guest = plan_a().guests[1];
            guest.deferrable = number;
            fault(&mut guest);
            for place in [0, 3, 7, 8, u32::MAX] {
                for length in [0, BLOCK - 1, BLOCK, BLOCK + 88] {
                    let buffer = vec![0xA5; length];
                    session.compare(Call::Write(Box::new(guest), place, buffer));
                }
            }
        }
    }
}

/// Plan A with a Deferrable guest and each fault of a record, in the same guest, in the other, and in one past the
/// count; and with each number of guests.
fn starts_with_faults(session: &mut Session) {
    for kinds in TWO_KINDS {
        for fault in WRONG_RECORDS {
            for at in 0..3 {
                let mut plan = plan_a();
                fault(&mut plan.guests[at]);
                let plan = of_kinds(plan, &kinds);
                for count in [0, 1, 2, 9, u32::MAX] {
                    session.compare(Call::Fresh(Box::new(Plan { count, ..plan })));
                }
            }
        }
    }
}

/// A full plan, or its first guests alone, with one guest Deferrable, which is among them or past them.
fn of_one_deferrable() -> Vec<Plan> {
    let mut all = Vec::new();
    for count in 1..=MOST_GUESTS as u32 {
        for at in 0..MOST_GUESTS {
            for number in NUMBERS {
                let mut plan = Plan { count, ..full() };
                plan.guests[at].deferrable = number;
                all.push(plan);
            }
        }
    }
    all
}

fn starts_of_a_full_plan(session: &mut Session) {
    for plan in of_one_deferrable() {
        session.compare(Call::Fresh(Box::new(plan)));
        session.compare(Call::Check(Box::new(plan)));
    }
}

/// Every call on the fresh state of such a plan, and on one with a job and a wait for each guest; whatever a tick
/// counts wraps.
fn states_of_a_full_plan(session: &mut Session) {
    for plan in of_one_deferrable() {
        let mut state = Dispatcher::with(plan);
        every_call(session, &state);
        state.usage = [u64::MAX; COUNTED];
        for guest in 0..plan.listed().len() {
            state.left[guest] = 2;
            state.position[guest] = 7;
            state.rest[place_of(guest, 3)] = 1;
            state.wait[place_of(guest, 0)] = 100;
        }
        every_call(session, &state);
    }
}

/// The states of a history of plan A, each with its guests' kinds changed, and with one past them.
fn states_of_a_history(session: &mut Session) {
    let mut state = release(&Dispatcher::with(plan_a()), 9, 1).dispatcher;
    for _ in 0..24 {
        for kinds in [[1, 0, 0], [0, 1, 0], [1, 1, 1], [0, 0, 1]] {
            let plan = of_kinds(state.plan, &kinds);
            let state = Dispatcher { plan, ..state };
            every_call(session, &state);
            for id in [7, 9] {
                session.compare(Call::Release(Box::new(state), id, 1));
            }
        }
        state = tick(&state).dispatcher;
    }
}
