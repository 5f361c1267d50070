//! Small plans of one to three guests with every period, and of every number of guests and tasks.

use super::asked;
use crate::exhaustive::{servers, tasks};
use crate::order::filled;
use crate::session::Session;
use reference::plan::{Guest, MOST_TASKS, Plan};
use reference::samples::{
    deferrable, falling, full, long_gap, plan_a, plan_a_bound, plan_a_exchanged, unfit_above,
};

/// What a guest asks: little, some, a lot at once, two tasks of which the lower decides, or the upper.
const ASKED: [&[[u32; 3]]; 5] = [
    &[[1, 9, 9]],
    &[[2, 12, 10]],
    &[[3, 20, 9]],
    &[[1, 8, 8], [2, 20, 15]],
    &[[1, 7, 4], [1, 30, 30]],
];

pub fn compare(session: &mut Session) {
    let bound = [0, 1, 2, 3].map(plan_a_bound);
    for plan in [
        plan_a(),
        plan_a_exchanged(),
        falling(),
        long_gap(),
        unfit_above(),
        full(),
    ]
    .iter()
    .chain(&bound)
    {
        asked(session, plan);
        asked(session, &filled(plan));
        asked(session, &deferrable(*plan));
    }
    one_guest(session);
    two_guests(session);
    three_guests(session);
    deadlines_of_plan_a(session);
    numbers_of_guests(session);
    numbers_of_tasks(session);
}

fn one_guest(session: &mut Session) {
    for [capacity, period] in servers(5) {
        for task in tasks(3, 8) {
            let mut guest = Guest::new(1, capacity, period, &[task]);
            asked(session, &Plan::new(&[guest]));
            guest.charge = 1;
            asked(session, &Plan::new(&[guest]));
        }
    }
}

/// The upper one is stored with every capacity, which plays no part.
fn two_guests(session: &mut Session) {
    for [capacity, long] in servers(5) {
        for upper in ASKED {
            for period in 1..=6 {
                for lower in ASKED {
                    let plan = Plan::new(&[
                        Guest::new(1, capacity, long, upper),
                        Guest::new(2, period, period, lower),
                    ]);
                    asked(session, &plan);
                }
            }
        }
    }
}

fn three_guests(session: &mut Session) {
    for (first, second, third) in [(3, 5, 6), (5, 4, 5), (6, 5, 4), (2, 3, 7)] {
        for upper in ASKED {
            for middle in ASKED {
                for lower in ASKED {
                    let plan = Plan::new(&[
                        Guest::new(1, first, first, upper),
                        Guest::new(2, 1, second, middle),
                        Guest::new(3, 1, third, lower),
                    ]);
                    asked(session, &plan);
                }
            }
        }
    }
}

/// Deadlines about the responses that guest 9's tasks have in plan A.
fn deadlines_of_plan_a(session: &mut Session) {
    for short in 10..=50 {
        for long in (20..=100).step_by(4) {
            let mut plan = plan_a();
            plan.guests[1].deadline[..2].copy_from_slice(&[short, long]);
            asked(session, &plan);
        }
    }
}

/// Each number of guests, of which the lowest asks for more and more.
fn numbers_of_guests(session: &mut Session) {
    let guests = [1, 2, 3, 4, 5, 6, 7, 8].map(|id| {
        let tasks = [[1, 50 + id, 50], [2, 60, 55 - id]];
        Guest::new(id, 1 + id, 10 + id, &tasks)
    });
    for count in 1..=guests.len() {
        for run in 1..=12 {
            let mut plan = Plan::new(&guests[..count]);
            plan.guests[count - 1].run[1] = run;
            asked(session, &plan);
            asked(session, &filled(&plan));
        }
    }
}

/// Each number of tasks, each bound or not.
fn numbers_of_tasks(session: &mut Session) {
    for count in 1..=MOST_TASKS {
        let tasks: Vec<[u32; 3]> = (0..count as u32).map(|at| [1, 60, 60 - at]).collect();
        for marks in [0, 1, 0x8000, 0x5555, u16::MAX] {
            let lower = Guest {
                marks,
                ..Guest::new(9, 3, 10, &tasks)
            };
            let plan = Plan::new(&[Guest::new(7, 2, 5, &[[1, 20, 20]]), lower]);
            asked(session, &plan);
            asked(session, &filled(&plan));
        }
    }
}
