//! Plans that document 01 works out by hand, plan A with tasks exchanged and with bound ones, a plan with a fitted
//! guest below an unfit one, and one that is full; and any of them with all guests Deferrable, or all Periodic.

use crate::plan::{Guest, Plan};

/// Plan A: guest 7, 2/5, task 1/20/20; guest 9, 8/20, tasks 10/50/50 and 8/100/100; charges 0.
pub fn plan_a() -> Plan {
    Plan::new(&[
        Guest::new(7, 2, 5, &[[1, 20, 20]]),
        Guest::new(9, 8, 20, &[[10, 50, 50], [8, 100, 100]]),
    ])
}

/// Plan A with guest 9's tasks exchanged: in this order the second one is unmet.
pub fn plan_a_exchanged() -> Plan {
    let mut plan = plan_a();
    plan.guests[1] = Guest::new(9, 8, 20, &[[8, 100, 100], [10, 50, 50]]);
    plan
}

/// Plan A with guest 9's first task 10/60/60, and these marks for guest 9.
pub fn plan_a_bound(marks: u16) -> Plan {
    let mut plan = plan_a();
    plan.guests[1] = Guest {
        marks,
        ..Guest::new(9, 8, 20, &[[10, 60, 60], [8, 100, 100]])
    };
    plan
}

/// The plan with all its guests Deferrable.
pub fn deferrable(mut plan: Plan) -> Plan {
    for guest in &mut plan.guests[..plan.count as usize] {
        guest.deferrable = 1;
    }
    plan
}

/// The plan with all its guests Periodic.
pub fn periodic(mut plan: Plan) -> Plan {
    for guest in &mut plan.guests[..plan.count as usize] {
        guest.deferrable = 0;
    }
    plan
}

/// Guest 8/9 above guest 1/11, where the right side of the second task's equation falls.
pub fn falling() -> Plan {
    Plan::new(&[
        Guest::new(1, 8, 9, &[[1, 31, 31]]),
        Guest::new(2, 1, 11, &[[1, 31, 31], [1, 31, 31]]),
    ])
}

/// Guest 1/1000 with a task 2/10/10: the first gap is past the deadline.
pub fn long_gap() -> Plan {
    Plan::new(&[Guest::new(1, 1, 1000, &[[2, 10, 10]])])
}

/// A guest that is unfit though little is asked, and below it one that is fitted with 8.
pub fn unfit_above() -> Plan {
    Plan::new(&[
        Guest::new(1, 3, 10, &[[1, 100, 100]]),
        Guest::new(2, 2, 4, &[[1, 100, 100]]),
        Guest::new(3, 1, 20, &[[1, 100, 100]]),
    ])
}

/// All guests and tasks that a plan can have, ids from 1, every task 1/300/300.
pub fn full() -> Plan {
    Plan::new(&[1, 2, 3, 4, 5, 6, 7, 8].map(|id| Guest::new(id, 3, 30, &[[1, 300, 300]; 16])))
}
