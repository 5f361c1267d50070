//! Smaller states of the dispatcher.

use super::{listed, smaller_plans, with_a_smaller_number, without_guest};
use reference::dispatcher::{COUNTED, Dispatcher, IDLED_FROM, place_of};
use reference::plan::MOST_GUESTS;

/// States with fewer guests, or with a number made smaller.
pub fn smaller_states(state: &Dispatcher) -> Vec<Dispatcher> {
    let mut all: Vec<Dispatcher> = (0..listed(&state.plan))
        .map(|gone| state_without_guest(state, gone))
        .collect();
    all.extend(with_a_smaller_number(state, state_numbers));
    all.extend(with_less_counted(state));
    all.extend(
        smaller_plans(&state.plan)
            .into_iter()
            .map(|plan| Dispatcher { plan, ..*state }),
    );
    all
}

/// Copies of a state with a number of ticks made zero.
fn with_less_counted(state: &Dispatcher) -> Vec<Dispatcher> {
    let counted = (0..COUNTED).filter(|at| state.usage[*at] != 0);
    counted
        .map(|at| {
            let mut less = *state;
            less.usage[at] = 0;
            less
        })
        .collect()
}

fn state_numbers(state: &mut Dispatcher) -> Vec<&mut u32> {
    let guests = state.left.iter_mut().chain(&mut state.position);
    let tasks = state
        .rest
        .iter_mut()
        .chain(&mut state.wait)
        .chain(&mut state.age);
    guests.chain(tasks).collect()
}

fn state_without_guest(state: &Dispatcher, gone: usize) -> Dispatcher {
    let mut fewer = *state;
    fewer.plan = without_guest(&state.plan, gone);
    for column in [&mut fewer.left, &mut fewer.position] {
        column.copy_within(gone + 1.., gone);
        column[MOST_GUESTS - 1] = 0;
    }
    for first in [0, IDLED_FROM] {
        let column = &mut fewer.usage[first..first + MOST_GUESTS];
        column.copy_within(gone + 1.., gone);
        column[MOST_GUESTS - 1] = 0;
    }
    for column in [&mut fewer.rest, &mut fewer.wait, &mut fewer.age] {
        column.copy_within(place_of(gone + 1, 0).., place_of(gone, 0));
        column[place_of(MOST_GUESTS - 1, 0)..].fill(0);
    }
    fewer
}
