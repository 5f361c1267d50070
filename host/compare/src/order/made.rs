//! Random plans with a guest to ask for, mostly one whose tasks can be reordered.

use crate::plans::{self, Size, some_id};
use crate::random::Random;
use reference::order::reordered;
use reference::plan::Plan;
use reference::verdict::task_response;

/// A plan and an id. The deadlines of its guest are mostly just what some order needs.
pub fn plan(random: &mut Random, size: Size) -> (Plan, u32) {
    let (mut plan, guest) = with_a_guest(random, size);
    match random.below(6) {
        0 => (),
        1 => even(random, &mut plan, guest),
        _ => tighten(random, &mut plan, guest),
    }
    shuffle(random, &mut plan, guest);
    let id = asked_for(random, &plan, guest);
    (plan, id)
}

/// The same with deadlines as they come, so that no response is searched for.
pub fn plan_of_any_deadlines(random: &mut Random, size: Size) -> (Plan, u32) {
    let (mut plan, guest) = with_a_guest(random, size);
    if random.once_in(2) {
        even(random, &mut plan, guest);
    }
    let id = asked_for(random, &plan, guest);
    (plan, id)
}

/// A plan and the place of one of its guests, mostly made Periodic with no task bound.
fn with_a_guest(random: &mut Random, size: Size) -> (Plan, usize) {
    let mut plan = plans::plan(random, size);
    let guest = random.below(plan.listed().len());
    if !random.once_in(4) {
        leave_room(&mut plan, guest);
    }
    let own = &mut plan.guests[guest];
    let (kind, mark) = (random.once_in(12), random.once_in(12));
    own.deferrable = if kind { own.deferrable } else { 0 };
    own.marks &= if mark {
        u16::MAX
    } else {
        !own.marks_of_tasks()
    };
    (plan, guest)
}

/// Makes it likely that some order works: guests above get less, the guest gets more, and its tasks ask for less.
fn leave_room(plan: &mut Plan, guest: usize) {
    for above in &mut plan.guests[..guest] {
        above.capacity = above.capacity.div_ceil(3);
    }
    let own = &mut plan.guests[guest];
    own.capacity = own.capacity.max(own.period / 2);
    own.charge = own.charge.min(1);
    for task in own.places() {
        own.run[task] = own.run[task].div_ceil(2);
    }
}

/// The guest's id, or now and then any.
fn asked_for(random: &mut Random, plan: &Plan, guest: usize) -> u32 {
    match random.once_in(12) {
        true => some_id(random, plan),
        false => plan.guests[guest].id,
    }
}

/// Few different deadlines.
fn even(random: &mut Random, plan: &mut Plan, guest: usize) {
    let own = &mut plan.guests[guest];
    let some = [own.deadline[0], own.every[0] / 2 + 1, own.every[0]];
    for task in own.places() {
        own.deadline[task] = random.pick(&some).min(own.every[task]);
    }
}

/// Gives each task the deadline that it needs in the order as it is, or a little more; one may be a tick short.
fn tighten(random: &mut Random, plan: &mut Plan, guest: usize) {
    for task in plan.guests[guest].places() {
        let more = random.pick(&[0, 0, 0, 1, 4]);
        let response = task_response(plan, guest, task);
        let own = &mut plan.guests[guest];
        if let Some(response) = response {
            own.deadline[task] = (response + more).min(own.every[task]);
        }
    }
    if random.once_in(3) {
        let own = &mut plan.guests[guest];
        let short = &mut own.deadline[random.below(own.tasks as usize)];
        *short = (*short - 1).max(1);
    }
}

/// Another order of the guest's tasks, unless one is bound: its mark would then stand at another task.
fn shuffle(random: &mut Random, plan: &mut Plan, guest: usize) {
    let own = &plan.guests[guest];
    if own.marks_of_tasks() == 0 {
        let mut places: Vec<usize> = own.places().collect();
        random.shuffle(&mut places);
        *plan = reordered(plan, guest, &places);
    }
}
