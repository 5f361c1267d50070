//! Small guests with every order of their tasks, alone and under a guest.

use super::{asked, every_guest, orders};
use crate::exhaustive::{servers, tasks};
use crate::session::Session;
use reference::plan::{Guest, MOST_TASKS, Plan};
use reference::samples::{
    deferrable, falling, full, long_gap, plan_a, plan_a_exchanged, unfit_above,
};

/// Tasks with deadlines and periods that are the same here and there.
const TASKS: [[u32; 3]; 8] = [
    [1, 4, 2],
    [1, 4, 4],
    [1, 6, 4],
    [1, 6, 5],
    [2, 6, 6],
    [3, 9, 6],
    [2, 9, 9],
    [4, 9, 9],
];

pub fn compare(session: &mut Session) {
    for plan in [
        plan_a(),
        plan_a_exchanged(),
        falling(),
        long_gap(),
        unfit_above(),
        full(),
    ] {
        every_guest(session, &plan);
        every_guest(session, &deferrable(plan));
    }
    two_tasks(session);
    three_tasks(session);
    four_tasks(session);
    under_a_guest(session);
    deadlines_of_plan_a(session);
    every_number_of_tasks(session);
    long_deadlines(session);
}

fn one_guest(session: &mut Session, [capacity, period]: [u32; 2], tasks: &[[u32; 3]]) {
    asked(
        session,
        &Plan::new(&[Guest::new(1, capacity, period, tasks)]),
        1,
    );
}

fn two_tasks(session: &mut Session) {
    let all = tasks(2, 5);
    for server in servers(4) {
        for first in &all {
            for second in &all {
                one_guest(session, server, &[*first, *second]);
            }
        }
    }
}

fn three_tasks(session: &mut Session) {
    for server in [[1, 1], [2, 3], [3, 4], [1, 4]] {
        for first in TASKS {
            for second in TASKS {
                for third in TASKS {
                    one_guest(session, server, &[first, second, third]);
                }
            }
        }
    }
}

/// Four tasks that are met in few orders, or none: the last one's deadline is short by nothing, or by a tick.
fn four_tasks(session: &mut Session) {
    for last in [15, 16, 17, 24] {
        for order in orders(&[[2, 8, 3], [2, 8, 7], [2, 12, 9], [4, 24, last]]) {
            one_guest(session, [1, 1], &order);
            one_guest(session, [5, 6], &order);
        }
    }
}

/// The guest above is Periodic or Deferrable, and its own tasks are never met.
fn under_a_guest(session: &mut Session) {
    for [above, long] in servers(3) {
        for kind in [0, 1] {
            let mut upper = Guest::new(2, above, long, &[[9, 9, 9], [9, 8, 8]]);
            upper.deferrable = kind;
            for [capacity, period] in servers(5) {
                for first in TASKS {
                    for second in TASKS {
                        let lower = Guest::new(1, capacity, period, &[first, second]);
                        asked(session, &Plan::new(&[upper, lower]), 1);
                    }
                }
            }
        }
    }
}

/// Deadlines about the responses 36 and 80 that guest 9's tasks have in plan A, and with a charge of 1.
fn deadlines_of_plan_a(session: &mut Session) {
    for short in 30..=50 {
        for long in 74..=100 {
            for charge in [0, 1] {
                for mut plan in [plan_a(), plan_a_exchanged()] {
                    let own = &mut plan.guests[1];
                    own.charge = charge;
                    for (run, deadline) in own.run.iter().zip(&mut own.deadline).take(2) {
                        *deadline = if *run == 10 { short } else { long };
                    }
                    asked(session, &plan, 9);
                }
            }
        }
    }
}

/// Up to 16 tasks from the latest deadline on, from the earliest on, with one deadline, with each deadline twice, and
/// mixed; alone, and where the last of them are not met.
fn every_number_of_tasks(session: &mut Session) {
    let ways: [fn(u32) -> u32; 5] = [
        |at| 300 - 10 * at,
        |at| 100 + 10 * at,
        |_| 250,
        |at| 300 - 10 * (at / 2),
        |at| 100 + 70 * at % 160,
    ];
    for count in 1..=MOST_TASKS as u32 {
        for way in ways {
            let made: Vec<[u32; 3]> = (0..count)
                .map(|at| [1 + at % 3, 400 - at, way(at)])
                .collect();
            for server in [[10, 10], [3, 20], [1, 20]] {
                one_guest(session, server, &made);
            }
        }
    }
}

/// Deadlines that differ only above 16 bits, or are the longest.
fn long_deadlines(session: &mut Session) {
    let deadlines = [2, 65_536, 65_538, 131_072, 1_000_000];
    for order in orders(&deadlines) {
        let made: Vec<[u32; 3]> = order.iter().map(|at| [1, 1_000_000, *at]).collect();
        one_guest(session, [1, 1], &made);
    }
}
