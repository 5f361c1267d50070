//! What is refused, and every two reasons together.

use super::around::filled;
use super::asked;
use crate::pairs::{WRONG_RECORDS, pairs};
use crate::session::Session;
use reference::plan::{Guest, MOST_TASKS, Plan};
use reference::samples::{plan_a_bound, plan_a_exchanged, unfit_above};

/// Numbers of a record's kind: Periodic, and several that say Deferrable.
const NUMBERS: [u32; 6] = [0, 1, 2, 256, 0x8000_0000, u32::MAX];

pub fn compare(session: &mut Session) {
    records(session);
    kinds_and_marks(session);
    each_mark(session);
    unfit(session);
}

/// Records that are wrong in two ways, with something past the counts too.
fn records(session: &mut Session) {
    for (first, second) in pairs(&WRONG_RECORDS) {
        for (count, places) in [
            (2, [0, 0]),
            (2, [0, 1]),
            (2, [1, 1]),
            (0, [0, 1]),
            (9, [0, 1]),
            (1, [1, 1]),
        ] {
            let mut plan = filled(&plan_a_exchanged());
            plan.count = count;
            first(&mut plan.guests[places[0]]);
            second(&mut plan.guests[places[1]]);
            for id in [9, 7, 5, 0] {
                asked(session, &plan, id);
            }
        }
    }
}

/// Each kind of both guests with each marks of the lower one's two tasks, past them too; its tasks in both orders, and
/// with a deadline that the first would meet if it were bound, or the second if it came first.
fn kinds_and_marks(session: &mut Session) {
    for (above, own) in pairs(&NUMBERS) {
        for marks in [0, 1, 2, 3, 4, 0x8000, 0xFFFC, 0xFFFD] {
            for deadlines in [[60, 100], [30, 100], [60, 50]] {
                let mut plan = plan_a_bound(marks);
                plan.guests[0].deferrable = above;
                plan.guests[0].marks = marks;
                plan.guests[1].deferrable = own;
                plan.guests[1].deadline[..2].copy_from_slice(&deadlines);
                for id in [9, 7, 5] {
                    asked(session, &plan, id);
                }
                let lower = &mut plan.guests[1];
                for column in [&mut lower.run, &mut lower.every, &mut lower.deadline] {
                    column.swap(0, 1);
                }
                asked(session, &plan, 9);
            }
        }
    }
}

/// Each number of tasks with each mark by itself, among the tasks and past them.
fn each_mark(session: &mut Session) {
    for count in 1..=MOST_TASKS {
        let tasks: Vec<[u32; 3]> = (0..count as u32).map(|at| [1, 100, 100 - at]).collect();
        for mark in 0..MOST_TASKS {
            let marks = 1 << mark;
            let own = Guest::new(9, 4, 5, &tasks);
            asked(session, &Plan::new(&[Guest { marks, ..own }]), 9);
        }
    }
}

/// Guests above an unfit one, the unfit one and those below it, with tasks in both orders, of each kind, and bound.
fn unfit(session: &mut Session) {
    for (first, second) in pairs(&[[1, 100, 100], [1, 90, 90], [2, 80, 2]]) {
        for kinds in 0..8 {
            for marks in [0, 1, 4] {
                let mut plan = unfit_above();
                for (at, guest) in plan.guests[..3].iter_mut().enumerate() {
                    *guest = Guest::new(guest.id, guest.capacity, guest.period, &[first, second]);
                    guest.deferrable = kinds >> at & 1;
                }
                plan.guests[2].marks = marks;
                for id in [1, 2, 3, 5] {
                    asked(session, &plan, id);
                }
            }
        }
    }
}
