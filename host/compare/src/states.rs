//! Random states of the dispatcher: in range, and hostile.

use crate::marks;
use crate::random::Random;
use reference::dispatcher::{COUNTED, Dispatcher, PLACES, place_of};
use reference::plan::{MOST_GUESTS, Plan};

/// A state in its ranges, if the plan has no Deferrable guest, which a history may reach or not, with any numbers for
/// where the ticks went.
pub fn in_range(random: &mut Random, plan: Plan) -> Dispatcher {
    let mut state = Dispatcher::with(plan);
    state.usage = counts(random);
    let busy = random.once_in(2);
    for (at, guest) in plan.listed().iter().enumerate() {
        state.left[at] = up_to(random, guest.capacity);
        state.position[at] = up_to(random, guest.period - 1);
        for task in guest.places() {
            let place = place_of(at, task);
            if busy || random.once_in(3) {
                state.rest[place] = up_to(random, guest.charged_run(task));
            }
            state.wait[place] = up_to(random, guest.every[task]);
            state.age[place] = up_to(random, 1_000_000);
        }
    }
    state
}

/// Where the ticks went: no range is asked of any of these, past the guests either.
fn counts(random: &mut Random) -> [u64; COUNTED] {
    std::array::from_fn(|_| random.count())
}

/// A number from 0 to `most`, often an end of it or small.
fn up_to(random: &mut Random, most: u32) -> u32 {
    match random.below(6) {
        0 | 1 => 0,
        2 => most,
        3 => most.min(1),
        4 => most.saturating_sub(1),
        _ => random.from(0, most),
    }
}

/// The state with some numbers changed: to an edge, or to the first one out of range; or
/// where the ticks went, which has no range.
pub fn hostile(random: &mut Random, state: &Dispatcher) -> Dispatcher {
    if random.once_in(30) {
        return anything(random, state.plan);
    }
    let mut changed = *state;
    for _ in 0..random.from(1, 2) {
        damage(random, &mut changed);
    }
    changed
}

fn anything(random: &mut Random, plan: Plan) -> Dispatcher {
    Dispatcher {
        plan,
        left: std::array::from_fn(|_| random.edge()),
        position: std::array::from_fn(|_| random.edge()),
        rest: std::array::from_fn(|_| random.edge()),
        wait: std::array::from_fn(|_| random.edge()),
        age: std::array::from_fn(|_| random.edge()),
        usage: counts(random),
    }
}

fn damage(random: &mut Random, state: &mut Dispatcher) {
    let at = random.below(MOST_GUESTS);
    let guest = state.plan.guests[at];
    let task = random.below(16);
    let any = random.below(PLACES);
    let place = random.pick(&[place_of(at, task), any]);
    let charged = guest.run[task].wrapping_add(2 * u32::from(guest.charge));
    let value = random.edge();
    let over = |most: u32, random: &mut Random| random.pick(&[most.wrapping_add(1), most, value]);
    match random.below(12) {
        0 => state.left[at] = over(guest.capacity, random),
        1 => state.position[at] = over(guest.period.wrapping_sub(1), random),
        2 => state.rest[place] = over(charged, random),
        3 => state.wait[place] = over(guest.every[task], random),
        4 => state.age[place] = over(1_000_000, random),
        5 => state.plan.count = value,
        6 => state.plan.guests[at].id = random.pick(&[0, state.plan.guests[0].id, value]),
        7 => state.usage = counts(random),
        8 => state.plan.guests[at].marks = random.next() as u16,
        9 => marks::no_multiple(&mut state.plan.guests[at], task),
        10 => state.plan.guests[at].deferrable = value,
        _ => state.plan.guests[at].period = value,
    }
}
