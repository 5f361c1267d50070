//! Long histories of calls: both sides in lock step, whole states compared after each call.

use crate::call::Call;
use crate::plans::{self, FULL, SMALL, TINY, some_id, some_task};
use crate::random::Random;
use crate::random_calls::any_calls;
use crate::session::Session;
use crate::sheets;
use crate::states;
use reference::dispatcher::Dispatcher;
use reference::samples::periodic;

/// One history from a fresh state of a plan without Deferrable guests.
pub fn history(session: &mut Session) {
    let size = session.random.pick(&[TINY, TINY, SMALL, FULL]);
    let plan = periodic(plans::plan(&mut session.random, size));
    let start = session.compare(Call::Fresh(Box::new(plan)));
    let Some(mut state) = start.state().copied() else {
        return;
    };
    for _ in 0..session.random.from(20, 400) {
        let call = step(session, &state);
        let outcome = session.compare(call);
        if let Some(next) = outcome.state() {
            state = *next;
        }
        if session.random.once_in(50) {
            let aside = states::hostile(&mut session.random, &state);
            any_calls(session, &aside, 3);
        }
    }
}

/// The next call of a history.
fn step(session: &mut Session, state: &Dispatcher) -> Call {
    let random = &mut session.random;
    let state = Box::new(*state);
    match random.below(11) {
        0..=3 => Call::Tick(state),
        4 => Call::Run(state, random.from(0, 3)),
        5 => {
            let ticks = match random.below(40) {
                0 => 1_000_001,
                1 => random.from(1_000, 20_000),
                _ => random.from(0, 60),
            };
            Call::Run(state, ticks)
        }
        6 => sheets::sheet(random, &state),
        _ => {
            let id = id_to_release(random, &state);
            let task = some_task(random, &state.plan, id);
            Call::Release(state, id, task)
        }
    }
}

/// A guest to release a task of: every other time one at position 0, where bound tasks are taken.
fn id_to_release(random: &mut Random, state: &Dispatcher) -> u32 {
    let listed = state.plan.listed().iter().zip(&state.position);
    let at_start: Vec<u32> = listed
        .filter(|(_, position)| **position == 0)
        .map(|(guest, _)| guest.id)
        .collect();
    match at_start.is_empty() || random.once_in(2) {
        true => some_id(random, &state.plan),
        false => random.pick(&at_start),
    }
}
