//! Old plans converted: small ones, all of them; then random ones.

mod blocks;
mod claims;
mod made;
mod outputs;
mod plans;

use crate::call::Call;
use crate::plans::{FULL, LARGE, SMALL, Size, TINY};
use crate::salvage::output;
use crate::session::Session;
pub use claims::{ACCEPTED, AGAIN, GUESTS, OWN, READ, TASKS};
use claims::{bytes, verdicts};
use reference::plan::{BLOCK, LONGEST_PLAN};

/// Small plans and outputs, all of them.
pub fn compare(session: &mut Session) {
    plans::compare(session);
    blocks::compare(session);
    outputs::compare(session);
}

/// Some random plans and outputs.
pub fn round(session: &mut Session) {
    for _ in 0..20 {
        let size = session.random.pick(&[TINY, SMALL, FULL, LARGE]);
        let (plan, room) = made::plan(&mut session.random, size);
        converted(session, &plan, room);
        whole(session, &plan);
    }
    for size in [TINY, TINY, TINY, SMALL] {
        let plan = made::old_plan(&mut session.random, size);
        verdicts(session, &plan);
    }
    // A subject that scans would take its time over these.
    if !session.scans && session.random.once_in(4) {
        let size = Size {
            guests: 3,
            tasks: 3,
            ..LARGE
        };
        let plan = made::old_plan(&mut session.random, size);
        verdicts(session, &plan);
    }
}

fn converted(session: &mut Session, plan: &[u8], room: usize) {
    session.compare(Call::Convert(plan.to_vec(), output(room)));
}

/// The plan with an output that is longer than any plan, and what holds of the bytes that the subject then writes.
fn whole(session: &mut Session, plan: &[u8]) {
    converted(session, plan, LONGEST_PLAN + BLOCK + 3);
    bytes(session, plan);
}
