//! Random plans, mostly of Periodic guests for which some choice of capacities is accepted.

use crate::plans::{self, Size};
use crate::random::Random;
use reference::choice::least_capacities;
use reference::plan::{Plan, Refusal};
use reference::samples::periodic;
use reference::verdict::task_response;

/// A plan, now and then with a Deferrable guest. Deadlines are often just what the least capacities need.
pub fn plan(random: &mut Random, size: Size) -> Plan {
    let plan = plans::plan(random, size);
    let mut plan = match random.once_in(12) {
        true => plan,
        false => periodic(plan),
    };
    if !random.once_in(4) {
        leave_room(&mut plan);
    }
    if !random.once_in(3) {
        tighten(random, &mut plan);
    }
    plan
}

/// A plan of Periodic guests with deadlines as they come, so that nothing is searched for.
pub fn plan_of_any_deadlines(random: &mut Random, size: Size) -> Plan {
    let mut plan = periodic(plans::plan(random, size));
    if !random.once_in(4) {
        leave_room(&mut plan);
    }
    plan
}

/// Makes it likely that some choice is accepted: tasks ask for less, and have the time for it.
fn leave_room(plan: &mut Plan) {
    for guest in &mut plan.guests[..plan.count as usize] {
        guest.charge = guest.charge.min(1);
        for task in guest.places() {
            guest.run[task] = guest.run[task].div_ceil(4);
            guest.deadline[task] = guest.every[task];
        }
    }
}

/// Gives a task of some guests the deadline that it needs with the least capacities, or a tick less or more.
fn tighten(random: &mut Random, plan: &mut Plan) {
    let chosen = least_capacities(plan);
    if chosen.refusal != Refusal::NONE {
        return;
    }
    for guest in 0..plan.listed().len() {
        let task = random.below(plan.guests[guest].tasks as usize);
        let response = task_response(&chosen.plan, guest, task);
        let own = &mut plan.guests[guest];
        if let Some(response) = response
            && random.once_in(2)
        {
            let deadline = response + random.pick(&[0, 1, 1, 1, 2]);
            own.deadline[task] = deadline.saturating_sub(1).clamp(1, own.every[task]);
        }
    }
}
