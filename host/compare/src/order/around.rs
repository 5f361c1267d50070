//! What stands around a guest whose tasks are reordered: other guests, and what is past the counts.

use super::{asked, orders};
use crate::session::Session;
use reference::plan::{Guest, MOST_TASKS, Plan};

pub fn compare(session: &mut Session) {
    for order in orders(&[[3, 60, 50], [2, 70, 60], [3, 90, 60], [4, 100, 100]]) {
        for above in guests(7, 2, 5) {
            for below in guests(3, 1, 40).into_iter().chain([unfit()]) {
                let mut own = Guest::new(9, 8, 20, &order);
                own.charge = above.charge;
                let plan = Plan::new(&[above, own, below]);
                of_every_sort(session, &plan);
                of_every_sort(session, &filled(&plan));
            }
        }
    }
    numbers_of_tasks(session);
    numbers_of_guests(session);
}

/// Each guest there is, one past the count, and one that is nowhere.
fn of_every_sort(session: &mut Session, plan: &Plan) {
    for id in [7, 9, 3, 14, 5] {
        asked(session, plan, id);
    }
}

/// Guests whose tasks are not in order: met, unmet, with a charge, Deferrable by several numbers.
fn guests(id: u32, capacity: u32, period: u32) -> [Guest; 4] {
    let met = Guest::new(id, capacity, period, &[[1, 200, 200], [1, 190, 190]]);
    let unmet = Guest::new(id, capacity, period, &[[1, 200, 200], [99, 190, 190]]);
    [
        met,
        Guest { charge: 2, ..unmet },
        Guest {
            deferrable: 1,
            ..met
        },
        Guest {
            deferrable: 0x0100_0000,
            ..met
        },
    ]
}

fn unfit() -> Guest {
    Guest::new(3, 9, 9, &[[1, 60, 60], [1, 50, 50]])
}

/// The plan with something past its counts: entries that would come first if they were sorted too, marks, and guests
/// that could be reordered, the first of which has the id 14.
pub fn filled(plan: &Plan) -> Plan {
    let mut changed = *plan;
    let count = plan.count as usize;
    for (at, guest) in changed.guests.iter_mut().enumerate() {
        if at >= count {
            let id = (14 + at - count) as u32;
            *guest = Guest::new(id, 1, 2, &[[1, 60, 60], [1, 50, 50]]);
        }
        let past = guest.tasks as usize;
        guest.marks |= (u32::from(u16::MAX) << past) as u16;
        for column in [&mut guest.run, &mut guest.every, &mut guest.deadline] {
            let entries = (0..).zip(&mut column[past..]);
            entries.for_each(|(at, entry)| *entry = 20 - at);
        }
    }
    changed
}

/// Each number of tasks, with entries past them that could be tasks.
fn numbers_of_tasks(session: &mut Session) {
    for count in 1..=MOST_TASKS {
        let tasks: Vec<[u32; 3]> = (0..count as u32)
            .map(|at| [1, 100 + at, 90 - at / 2])
            .collect();
        let plan = Plan::new(&[Guest::new(9, 3, 4, &tasks)]);
        of_every_sort(session, &filled(&plan));
    }
}

/// Each number of guests, each asked for in turn.
fn numbers_of_guests(session: &mut Session) {
    let guests = [1, 2, 3, 4, 5, 6, 7, 8].map(|id| {
        let tasks = [[1, 400, 400], [2, 300, 300], [1, 350, 350 - id]];
        Guest::new(20 + id, 3, 30, &tasks)
    });
    for count in 1..=guests.len() {
        let plan = Plan::new(&guests[..count]);
        for id in 20..=29 {
            asked(session, &plan, id);
            asked(session, &filled(&plan), id);
        }
    }
}
