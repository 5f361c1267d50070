//! Wrong treatments of bound tasks, each of which the small inputs with marks alone must find.

#[path = "marks/amendments.rs"]
pub mod amendments;
#[path = "marks/blocks.rs"]
pub mod blocks;
#[path = "marks/records.rs"]
mod records;
#[path = "marks/releases.rs"]
mod releases;
#[path = "marks/sheets.rs"]
mod sheets;
#[path = "marks/verdicts.rs"]
mod verdicts;
#[path = "marks/writer.rs"]
pub mod writer;

use compare::bound;
use compare::session::Session;
use compare::side::{REFERENCE, Side};
use reference::dispatcher::{Dispatcher, Released};
use reference::plan::{BLOCK, Plan, seal};

/// Whether the small inputs with marks find nothing wrong with a side.
fn passes(side: Side) -> bool {
    let mut session = Session::new(side, 1);
    bound::compare(&mut session);
    session.found_nothing()
}

/// The plan with other marks for each guest.
fn remarked(plan: &Plan, change: impl Fn(u16) -> u16) -> Plan {
    let mut changed = *plan;
    for guest in &mut changed.guests {
        guest.marks = change(guest.marks);
    }
    changed
}

/// The plan with no task bound.
fn unmarked(plan: &Plan) -> Plan {
    remarked(plan, |_| 0)
}

/// The state with no task bound.
fn unmarked_state(state: &Dispatcher) -> Dispatcher {
    Dispatcher {
        plan: unmarked(&state.plan),
        ..*state
    }
}

/// The outcome with the records of the state that it comes from.
fn with_records_of(state: &Dispatcher, outcome: Released) -> Released {
    let dispatcher = Dispatcher {
        plan: state.plan,
        ..outcome.dispatcher
    };
    Released {
        dispatcher,
        ..outcome
    }
}

/// Bytes with each block changed, and the checks that were right made anew.
pub fn changed(bytes: &[u8], change: impl Fn(&mut [u8])) -> Vec<u8> {
    let mut bytes = bytes.to_vec();
    for block in bytes.chunks_exact_mut(BLOCK) {
        let mut resealed = block.to_vec();
        seal(&mut resealed);
        let right = resealed == block;
        change(block);
        if right {
            seal(block);
        }
    }
    bytes
}

/// The kind, the marks or the number of tasks of a block.
pub fn short(block: &[u8], at: usize) -> u16 {
    u16::from_le_bytes([block[at], block[at + 1]])
}

pub fn put_short(block: &mut [u8], at: usize, value: u16) {
    block[at..at + 2].copy_from_slice(&value.to_le_bytes());
}

/// The marks that a guest with so many tasks may have.
fn all_of(tasks: u32) -> u16 {
    ((1_u32 << tasks.min(16)) - 1) as u16
}

#[test]
fn the_reference_is_right_about_marks() {
    assert!(passes(REFERENCE));
}
