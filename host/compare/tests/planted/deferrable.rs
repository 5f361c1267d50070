//! Wrong treatments of Deferrable guests, each of which the small inputs with such guests alone must find.

#[path = "deferrable/amendments.rs"]
mod amendments;
#[path = "deferrable/blocks.rs"]
mod blocks;
#[path = "deferrable/old.rs"]
mod old;
#[path = "deferrable/starts.rs"]
mod starts;
#[path = "deferrable/states.rs"]
mod states;
#[path = "deferrable/verdicts.rs"]
mod verdicts;
#[path = "deferrable/writer.rs"]
mod writer;

use compare::deferrable;
use compare::session::Session;
use compare::side::{REFERENCE, Side};
use reference::plan::{Guest, Plan};

/// Whether the small inputs with Deferrable guests find nothing wrong with a side.
fn passes(side: Side) -> bool {
    let mut session = Session::new(side, 1);
    deferrable::compare(&mut session);
    session.found_nothing()
}

/// The plan with another number for each guest's kind.
fn of_kinds(plan: &Plan, kind: impl Fn(&Guest) -> u32) -> Plan {
    let mut changed = *plan;
    for guest in &mut changed.guests {
        guest.deferrable = kind(guest);
    }
    changed
}

/// The plan with all guests Periodic.
fn periodic(plan: &Plan) -> Plan {
    of_kinds(plan, |_| 0)
}

/// The plan with those guests Deferrable alone whose number is 1.
fn by_number_1(plan: &Plan) -> Plan {
    of_kinds(plan, |guest| u32::from(guest.deferrable == 1))
}

#[test]
fn the_reference_is_right_about_deferrable_guests() {
    assert!(passes(REFERENCE));
}
