//! Plans of Deferrable and Periodic guests in every mix, with what is claimed of their bytes and their verdicts.

use super::{verdicts, whole};
use crate::exhaustive::servers;
use crate::salvage::{mixed, small_plans};
use crate::session::Session;
use reference::plan::{Guest, Plan, blocks_of};
use reference::samples::{deferrable, falling, full, long_gap, unfit_above};

pub fn compare(session: &mut Session) {
    for plan in small_plans() {
        both(session, &plan);
    }
    for plan in [falling(), long_gap(), unfit_above()] {
        for kinds in 0..1 << plan.count {
            both(session, &of_kinds(plan, kinds));
        }
    }
    mixes_of_eight(session);
    plans_of_two_guests(session);
    plans_of_three_guests(session);
}

/// The plan with the guests Deferrable that have a bit in these.
fn of_kinds(mut plan: Plan, kinds: u32) -> Plan {
    for (at, guest) in plan.guests.iter_mut().enumerate() {
        guest.deferrable = kinds >> at & 1;
    }
    plan
}

/// All that is asked of a plan's bytes, and of its verdicts.
fn both(session: &mut Session, plan: &Plan) {
    let bytes = blocks_of(plan);
    whole(session, &bytes);
    verdicts(session, &bytes);
}

/// Eight guests in every mix of kinds, with marks of all sorts and with none.
fn mixes_of_eight(session: &mut Session) {
    for plan in [mixed(), full()] {
        for kinds in 0..1 << 8 {
            whole(session, &blocks_of(&of_kinds(plan, kinds)));
        }
    }
    both(session, &deferrable(mixed()));
}

/// A guest with two tasks, unbound, or with one or both bound, below another, of which at least that one is Deferrable.
fn plans_of_two_guests(session: &mut Session) {
    for [above, long] in servers(4) {
        let upper = Guest::new(1, above, long, &[[1, 9, 9]]);
        for [capacity, period] in servers(5) {
            for run in 1..=2 {
                for marks in 0..4 {
                    let tasks = [
                        [1, 3 * period, 8.min(3 * period)],
                        [run, 4 * period, 2 * period],
                    ];
                    let lower = Guest::new(2, capacity, period, &tasks);
                    let plan = Plan::new(&[upper, Guest { marks, ..lower }]);
                    for kinds in [1, 3] {
                        verdicts(session, &blocks_of(&of_kinds(plan, kinds)));
                    }
                }
            }
        }
    }
}

/// Two guests above a third, in each mix of kinds.
fn plans_of_three_guests(session: &mut Session) {
    for [first, first_period] in servers(3) {
        for [second, second_period] in servers(4) {
            for period in 5..=14 {
                let plan = Plan::new(&[
                    Guest::new(1, first, first_period, &[[1, 9, 9]]),
                    Guest::new(2, second, second_period, &[[1, 9, 9]]),
                    Guest::new(3, 1, period, &[[2, 60, 40]]),
                ]);
                for kinds in 1..8 {
                    verdicts(session, &blocks_of(&of_kinds(plan, kinds)));
                }
            }
        }
    }
}
