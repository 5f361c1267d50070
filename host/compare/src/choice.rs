//! Least capacities: small plans, all of them; then random ones.

mod claims;
mod made;
mod refused;
mod small;

use crate::call::{Call, Outcome};
use crate::plans::{self, FULL, LARGE, SMALL, Size, TINY};
use crate::session::Session;
pub use claims::{ACCEPTED, AGAIN, LEAST, ONE_BY_ONE};
use claims::{by_all_choices, by_its_own_verdicts};
use reference::plan::{Guest, Plan, check};

/// So few choices of capacities that all of them are tried, and tasks with time enough that some are accepted.
const THREE: Size = Size {
    guests: 3,
    every: 50,
    ..TINY
};

/// More guests and tasks with time enough.
const FOUR: Size = Size {
    every: 200,
    ..SMALL
};

/// Small plans, all of them.
pub fn compare(session: &mut Session) {
    small::compare(session);
    refused::compare(session);
}

/// Some random plans.
pub fn round(session: &mut Session) {
    for _ in 0..20 {
        let size = session.random.pick(&[TINY, THREE, THREE, FOUR, FOUR, FULL]);
        let plan = made::plan(&mut session.random, size);
        asked(session, &plan);
    }
    for _ in 0..4 {
        hostile(session);
    }
    // The reference would take its time over these: what the subject says is held to its own verdicts alone.
    if !session.scans && session.random.once_in(4) {
        let plan = made::plan_of_any_deadlines(&mut session.random, LARGE);
        by_its_own_verdicts(session, &plan);
    }
}

/// A plan that is refused unsearched, or whose periods are short: one that came out well formed may have long ones.
fn hostile(session: &mut Session) {
    let size = session.random.pick(&[TINY, SMALL, FULL]);
    let plan = plans::hostile(&mut session.random, size);
    if check(&plan).number != 0 || plan.has_deferrable() || plan.listed().iter().all(is_short) {
        asked(session, &plan);
    }
}

fn is_short(guest: &Guest) -> bool {
    let mut every = guest.places().map(|task| guest.every[task]);
    guest.period <= 30 && every.all(|every| every <= 100)
}

/// The least capacities of a plan, and what holds of the subject's own answers where the guests are searched.
fn asked(session: &mut Session, plan: &Plan) {
    let outcome = session.compare(Call::LeastCapacities(Box::new(*plan)));
    if let Outcome::Chosen(chosen) = outcome
        && [0, 11].contains(&chosen.refusal.number)
    {
        by_its_own_verdicts(session, plan);
        by_all_choices(session, plan);
    }
}
