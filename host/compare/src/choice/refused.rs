//! What is refused, and every two reasons together.

use super::asked;
use crate::order::filled;
use crate::pairs::{WRONG_RECORDS, pairs};
use crate::session::Session;
use reference::plan::{Guest, MOST_GUESTS, Plan};
use reference::samples::plan_a;

/// Numbers of a record's kind that say Deferrable.
const NUMBERS: [u32; 5] = [1, 2, 256, 0x8000_0000, u32::MAX];

pub fn compare(session: &mut Session) {
    records(session);
    kinds(session);
    places(session);
    kinds_and_places(session);
}

/// Records that are wrong in two ways, with something past the counts too.
fn records(session: &mut Session) {
    for (first, second) in pairs(&WRONG_RECORDS) {
        for (count, places) in [
            (2, [0, 0]),
            (2, [0, 1]),
            (2, [1, 1]),
            (0, [0, 1]),
            (9, [0, 1]),
            (1, [1, 1]),
        ] {
            let mut plan = filled(&plan_a());
            plan.count = count;
            first(&mut plan.guests[places[0]]);
            second(&mut plan.guests[places[1]]);
            asked(session, &plan);
        }
    }
}

/// All guests that a plan can have; those at these places have a task that no capacity is enough for.
fn hopeless_at(places: &[usize]) -> Plan {
    let mut plan = Plan::new(&[1, 2, 3, 4, 5, 6, 7, 8].map(|id| {
        let tasks = [[1, 80, 80 - id], [2, 90, 90]];
        Guest::new(id, 9 + id, 9 + id, &tasks)
    }));
    for place in places {
        plan.guests[*place].deadline[1] = 2;
    }
    plan
}

/// A Deferrable guest at each place, counted or past the count.
fn kinds(session: &mut Session) {
    for place in 0..MOST_GUESTS {
        for number in NUMBERS {
            let mut plan = hopeless_at(&[]);
            plan.guests[place].deferrable = number;
            for count in 1..=MOST_GUESTS as u32 {
                asked(session, &Plan { count, ..plan });
            }
        }
    }
}

/// Each two guests without a capacity, counted or past the count.
fn places(session: &mut Session) {
    for first in 0..MOST_GUESTS {
        for second in first..MOST_GUESTS {
            let plan = hopeless_at(&[first, second]);
            for count in 1..=MOST_GUESTS as u32 {
                asked(session, &Plan { count, ..plan });
            }
        }
    }
}

/// A Deferrable guest above, below and at one without a capacity.
fn kinds_and_places(session: &mut Session) {
    for place in 0..MOST_GUESTS {
        for hopeless in 0..MOST_GUESTS {
            let mut plan = hopeless_at(&[hopeless]);
            plan.guests[place].deferrable = 1;
            asked(session, &plan);
        }
    }
}
