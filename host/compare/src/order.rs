//! Orders for guests' tasks: small plans, all of them; then random ones.

mod around;
mod made;
mod refused;
mod small;

use crate::call::{Call, Outcome};
use crate::plans::{self, FULL, LARGE, SMALL, Size, TINY, some_id};
use crate::session::Session;
use crate::show;
use crate::side::Side;
pub(crate) use around::filled;
use reference::order::{by_deadline, reordered};
use reference::plan::{Guest, Plan, check};
use reference::verdict::YES;

/// The checks' names in the report.
pub const BY_DEADLINE: &str = "orders by deadline, all met";
pub const AGAIN: &str = "ordered again the same";
pub const NO_ORDER: &str = "no order by verdicts too";

/// As many tasks as the reference tries every order of.
const SIX: Size = Size { tasks: 6, ..SMALL };

/// Small plans, all of them.
pub fn compare(session: &mut Session) {
    small::compare(session);
    around::compare(session);
    refused::compare(session);
}

/// Some random plans.
pub fn round(session: &mut Session) {
    for _ in 0..20 {
        let size = session.random.pick(&[TINY, SIX, SIX, SIX, SIX, FULL]);
        let (plan, id) = made::plan(&mut session.random, size);
        asked(session, &plan, id);
    }
    for _ in 0..4 {
        hostile(session);
    }
    if session.random.once_in(60) {
        large(session);
    }
    // The reference would take its time over these: what the subject says is held to its own verdicts alone.
    if !session.scans && session.random.once_in(4) {
        let (plan, id) = made::plan_of_any_deadlines(&mut session.random, LARGE);
        by_its_own_verdicts(session, &plan, id);
    }
}

/// A plan that is out of range somewhere, or whose periods are short: one that came out well formed may have long ones.
fn hostile(session: &mut Session) {
    let size = session.random.pick(&[TINY, SIX, FULL]);
    let plan = plans::hostile(&mut session.random, size);
    let id = some_id(&mut session.random, &plan);
    if check(&plan).number != 0 || plan.listed().iter().all(is_short) {
        asked(session, &plan, id);
    }
}

fn is_short(guest: &Guest) -> bool {
    let mut every = guest.places().map(|task| guest.every[task]);
    guest.period <= 500 && every.all(|every| every <= 500)
}

/// A plan with numbers up to the largest.
fn large(session: &mut Session) {
    let size = Size {
        guests: 2,
        tasks: 3,
        ..LARGE
    };
    let (plan, id) = made::plan_of_any_deadlines(&mut session.random, size);
    session.compare(Call::Order(Box::new(plan), id));
}

/// An order for a guest's tasks, and what holds of the subject's own answers where the records are right.
fn asked(session: &mut Session, plan: &Plan, id: u32) {
    let outcome = session.compare(Call::Order(Box::new(*plan), id));
    if let Outcome::Ordered(ordered) = outcome
        && [0, 22].contains(&ordered.refusal.number)
    {
        by_its_own_verdicts(session, plan, id);
    }
}

/// What the subject proposes is the order by deadline, in which it finds every task met, and it comes back the same;
/// where the subject knows of no order, it finds some task in that one not met.
fn by_its_own_verdicts(session: &mut Session, plan: &Plan, id: u32) {
    let Ok(guest) = plan.place_of(id) else {
        return;
    };
    let subject = session.subject;
    let outcome = (subject.order)(plan, id);
    let sorted = reordered(plan, guest, &by_deadline(&plan.guests[guest]));
    let met = all_met(&subject, &sorted, id);
    match outcome.refusal.number {
        0 => {
            let again = (subject.order)(&outcome.plan, id);
            held(
                session,
                BY_DEADLINE,
                met && outcome.plan == sorted,
                plan,
                id,
            );
            held(session, AGAIN, again == outcome, plan, id);
            let decides = !all_met(&subject, plan, id);
            session.count("orders that decide", decides.into());
        }
        22 => held(session, NO_ORDER, !met, plan, id),
        _ => (),
    }
}

/// Whether a side finds every task of a guest met.
fn all_met(side: &Side, plan: &Plan, id: u32) -> bool {
    let guest = plan.listed().iter().find(|guest| guest.id == id);
    let mut tasks = 1..=guest.map_or(0, |guest| guest.tasks);
    tasks.all(|task| (side.task_verdict)(plan, id, task).verdict == YES)
}

fn held(session: &mut Session, name: &'static str, held: bool, plan: &Plan, id: u32) {
    if session.note(name, held) {
        let outcome = (session.subject.order)(plan, id);
        println!("DIFFERENT: {name}: id {id} {}", show::plan(plan));
        println!("  subject: {}", show::ordered(&outcome));
    }
}

/// Asks for each guest of a plan, and for one that it does not have.
fn every_guest(session: &mut Session, plan: &Plan) {
    for guest in plan.listed() {
        asked(session, plan, guest.id);
    }
    asked(session, plan, 5);
}

/// Things in every order.
fn orders<T: Copy>(of: &[T]) -> Vec<Vec<T>> {
    if of.is_empty() {
        return vec![Vec::new()];
    }
    let mut all = Vec::new();
    for (at, first) in of.iter().enumerate() {
        let rest = [&of[..at], &of[at + 1..]].concat();
        let behind = orders(&rest).into_iter();
        all.extend(behind.map(|rest| [&[*first], &rest[..]].concat()));
    }
    all
}
