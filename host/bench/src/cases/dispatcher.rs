//! A release, a tick and a run.

use super::{Case, DISPATCHER, PLACED, case, ours, plans, same};
use std::hint::black_box;

/// A fresh state of each side, with a job of every task if asked for.
pub fn states(bytes: &[u8], busy: bool) -> (coreshare::Dispatcher, plain::Dispatcher) {
    let (ours, plain) = plans(bytes);
    let mut ours = coreshare::Dispatcher::fresh(&ours).expect("a start");
    let mut plain = plain::Dispatcher::fresh(&plain).expect("a start");
    for guest in plain.plan.listed().to_vec() {
        for task in (1..=guest.tasks).filter(|_| busy) {
            ours.release(guest.id, task).expect("taken");
            plain.release(guest.id, task).expect("taken");
        }
    }
    (ours, plain)
}

/// A release into a fresh state each time; in place, the job is taken back.
pub fn release(name: &'static str, bytes: Vec<u8>) -> Case {
    let (product, plain) = states(&bytes, false);
    case(
        name,
        DISPATCHER,
        move || {
            let next = ours::release(black_box(&product), 8, 16).dispatcher;
            u64::from(next.rest[127])
        },
        move || {
            let next = same::release(*black_box(&plain), 8, 16).dispatcher;
            u64::from(next.rest[127])
        },
        released_in_place(plain),
    )
}

/// The same into a state that stays where it lies; plain Rust in place on both sides.
pub fn release_in_place(name: &'static str, bytes: Vec<u8>) -> Case {
    let (mut product, plain) = states(&bytes, false);
    case(
        name,
        PLACED,
        move || {
            let state = black_box(&mut product);
            state.release(8, 16).expect("taken");
            taken_back(&mut state.rest, &mut state.wait)
        },
        released_in_place(plain),
        released_in_place(plain),
    )
}

fn released_in_place(mut placed: plain::Dispatcher) -> impl FnMut() -> u64 {
    move || {
        let state = black_box(&mut placed);
        state.release(8, 16).expect("taken");
        taken_back(&mut state.rest, &mut state.wait)
    }
}

/// The run left of the last task, whose job is taken back.
fn taken_back(rest: &mut [u32; 128], wait: &mut [u32; 128]) -> u64 {
    wait[127] = 0;
    u64::from(std::mem::take(&mut rest[127]))
}

/// One tick after another.
pub fn tick(name: &'static str, bytes: Vec<u8>) -> Case {
    let (mut product, mut plain) = states(&bytes, true);
    let mut placed = plain;
    case(
        name,
        DISPATCHER,
        move || {
            product = ours::tick(black_box(&product)).dispatcher;
            u64::from(product.position[0])
        },
        move || {
            plain = same::tick(*black_box(&plain)).dispatcher;
            u64::from(plain.position[0])
        },
        move || {
            black_box(&mut placed).tick().expect("in range");
            u64::from(placed.position[0])
        },
    )
}

/// One tick after another, of a state that stays where it lies; plain Rust in place on both sides.
pub fn tick_in_place(name: &'static str, bytes: Vec<u8>) -> Case {
    let (mut product, plain) = states(&bytes, true);
    let (mut one, mut two) = (plain, plain);
    case(
        name,
        PLACED,
        move || {
            black_box(&mut product).tick().expect("in range");
            u64::from(product.position[0])
        },
        move || {
            black_box(&mut one).tick().expect("in range");
            u64::from(one.position[0])
        },
        move || {
            black_box(&mut two).tick().expect("in range");
            u64::from(two.position[0])
        },
    )
}

/// 1,000,000 ticks that finish no job: in place, a loop that checks nothing.
pub fn run(name: &'static str, bytes: Vec<u8>, busy: bool) -> Case {
    let (product, plain) = states(&bytes, busy);
    case(
        name,
        DISPATCHER,
        move || {
            let outcome = ours::run(black_box(&product), 1_000_000);
            u64::from(outcome.done + outcome.dispatcher.position[0])
        },
        move || {
            let outcome = same::run(*black_box(&plain), 1_000_000);
            u64::from(outcome.done + outcome.dispatcher.position[0])
        },
        move || {
            let mut next = *black_box(&plain);
            let (done, _) = next.unchecked(1_000_000);
            u64::from(done + next.position[0])
        },
    )
}
