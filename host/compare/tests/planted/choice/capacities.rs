//! Capacities that are searched for in a wrong way, or under the wrong ones.

use super::{by, is_searched, passes, searched, smallest, with};
use reference::choice::least_capacities;
use reference::plan::Plan;
use reference::verdict::{YES, accept, guest_response, task_response, works};

/// Whether all tasks of a guest have a response that passes a test, which is told the deadline too.
fn all_tasks(plan: &Plan, guest: usize, passes: impl Fn(u32, u32) -> bool) -> bool {
    let own = &plan.guests[guest];
    own.places().all(|task| {
        let response = task_response(plan, guest, task);
        response.is_some_and(|response| passes(response, own.deadline[task]))
    })
}

/// The plan with another capacity for a guest.
fn with_capacity(plan: &Plan, guest: usize, capacity: u32) -> Plan {
    let mut changed = *plan;
    changed.guests[guest].capacity = capacity;
    changed
}

/// The smallest capacity that passes another test.
fn first(plan: &Plan, guest: usize, passes: impl Fn(&Plan) -> bool) -> Option<u32> {
    (1..=plan.guests[guest].period).find(|capacity| passes(&with_capacity(plan, guest, *capacity)))
}

#[test]
fn the_guests_searched_from_the_lowest_up() {
    assert!(!passes(|plan| match is_searched(plan) {
        true => searched(plan, (0..plan.listed().len()).rev(), smallest),
        false => least_capacities(plan),
    }));
}

#[test]
fn each_guest_under_the_stored_capacities_of_those_above() {
    assert!(!passes(|plan| by(plan, |_, guest| smallest(plan, guest))));
}

#[test]
fn each_guest_under_the_chosen_capacity_of_the_next_one_above_alone() {
    assert!(!passes(|plan| by(plan, |chosen, guest| {
        let mut mixed = *plan;
        if let Some(above) = guest.checked_sub(1) {
            mixed.guests[above] = chosen.guests[above];
        }
        smallest(&mixed, guest)
    })));
}

#[test]
fn the_largest_capacity_that_works() {
    assert!(!passes(|plan| by(plan, |plan, guest| {
        let mut capacities = (1..=plan.guests[guest].period).rev();
        capacities.find(|capacity| works(plan, guest, *capacity))
    })));
}

#[test]
fn no_capacity_above_the_stored_one() {
    assert!(!passes(|plan| by(plan, |chosen, guest| {
        smallest(chosen, guest).filter(|capacity| *capacity <= plan.guests[guest].capacity)
    })));
}

#[test]
fn a_stored_capacity_that_works_kept() {
    assert!(!passes(|plan| by(plan, |chosen, guest| {
        let stored = plan.guests[guest].capacity;
        match works(chosen, guest, stored) {
            true => Some(stored),
            false => smallest(chosen, guest),
        }
    })));
}

#[test]
fn an_accepted_plan_left_as_it_is() {
    assert!(!passes(|plan| with(plan, |chosen| {
        if accept(plan).verdict == YES {
            *chosen = *plan;
        }
    })));
}

#[test]
fn the_whole_period_never_tried() {
    assert!(!passes(|plan| by(plan, |plan, guest| {
        smallest(plan, guest).filter(|capacity| *capacity < plan.guests[guest].period)
    })));
}

#[test]
fn a_capacity_of_one_never_tried() {
    assert!(!passes(|plan| by(plan, |plan, guest| {
        let mut capacities = 2..=plan.guests[guest].period;
        capacities.find(|capacity| works(plan, guest, *capacity))
    })));
}

#[test]
fn the_guest_not_held_to_be_fitted() {
    assert!(!passes(|plan| by(plan, |plan, guest| {
        first(plan, guest, |plan| {
            all_tasks(plan, guest, |response, deadline| response <= deadline)
        })
    })));
}

#[test]
fn tasks_not_held_to_be_met() {
    assert!(!passes(|plan| by(plan, |plan, guest| {
        first(plan, guest, |plan| guest_response(plan, guest).is_some())
    })));
}

#[test]
fn unmet_with_a_response_taken_for_met() {
    assert!(!passes(|plan| by(plan, |plan, guest| {
        first(plan, guest, |plan| {
            guest_response(plan, guest).is_some() && all_tasks(plan, guest, |_, _| true)
        })
    })));
}

#[test]
fn the_lowest_task_alone_looked_at() {
    assert!(!passes(|plan| by(plan, |plan, guest| {
        let own = &plan.guests[guest];
        let lowest = own.tasks as usize - 1;
        let deadline = own.deadline[lowest];
        first(plan, guest, |plan| {
            let response = task_response(plan, guest, lowest);
            guest_response(plan, guest).is_some()
                && response.is_some_and(|response| response <= deadline)
        })
    })));
}

#[test]
fn the_charge_left_out() {
    assert!(!passes(|plan| by(plan, |plan, guest| {
        let mut uncharged = *plan;
        uncharged.guests[guest].charge = 0;
        smallest(&uncharged, guest)
    })));
}

#[test]
fn the_marks_left_out() {
    assert!(!passes(|plan| by(plan, |plan, guest| {
        let mut unbound = *plan;
        unbound.guests[guest].marks = 0;
        smallest(&unbound, guest)
    })));
}

#[test]
fn the_lowest_guest_not_searched() {
    assert!(!passes(|plan| by(plan, |chosen, guest| {
        match guest + 1 == plan.listed().len() {
            true => Some(plan.guests[guest].capacity),
            false => smallest(chosen, guest),
        }
    })));
}
