//! What holds of the subject's own answers about a plan of Periodic guests.

use crate::session::Session;
use crate::show;
use crate::side::Side;
use reference::choice::Chosen;
use reference::plan::{Plan, Refusal};
use reference::verdict::YES;

/// The checks' names in the report.
pub const ACCEPTED: &str = "least capacities accepted";
pub const AGAIN: &str = "chosen again the same";
pub const ONE_BY_ONE: &str = "chosen as one by one";
pub const LEAST: &str = "no accepted choice has less";

/// Plans with at most so many choices of capacities have all of them tried.
const MOST_TRIED: u32 = 300;

/// What the subject chooses is what its smallest capacities are one after the other; it is accepted, and comes back the
/// same, though other capacities are stored then.
pub fn by_its_own_verdicts(session: &mut Session, plan: &Plan) {
    let subject = session.subject;
    let outcome = (subject.least_capacities)(plan);
    let same = outcome == one_by_one(&subject, plan);
    held(session, ONE_BY_ONE, same, plan);
    if outcome.refusal == Refusal::NONE {
        let accepted = (subject.accept)(&outcome.plan).verdict == YES;
        let again = (subject.least_capacities)(&outcome.plan);
        held(session, ACCEPTED, accepted, plan);
        held(session, AGAIN, again == outcome, plan);
        let decides = (subject.accept)(plan).verdict != YES;
        session.count("choices that decide", decides.into());
    }
}

/// Each guest's smallest capacity in the plan in which those above have theirs already.
fn one_by_one(side: &Side, plan: &Plan) -> Chosen {
    let mut chosen = *plan;
    for (place, guest) in plan.listed().iter().enumerate() {
        let smallest = (side.smallest_capacity)(&chosen, guest.id);
        if smallest.number != 0 {
            return Chosen {
                refusal: Refusal::new(smallest.number, place as u32),
                plan: *plan,
            };
        }
        chosen.guests[place].capacity = smallest.ticks;
    }
    Chosen {
        refusal: Refusal::NONE,
        plan: chosen,
    }
}

/// Of the choices that the subject accepts no one has less for any guest than what it chooses, which is one of them;
/// where it finds none there is none.
pub fn by_all_choices(session: &mut Session, plan: &Plan) {
    let periods = plan.listed().iter().map(|guest| guest.period);
    let count = periods.fold(1, u32::saturating_mul);
    if count > MOST_TRIED {
        return;
    }
    let subject = session.subject;
    let outcome = (subject.least_capacities)(plan);
    let mut accepted: Vec<Plan> = (0..count).map(|number| choice(plan, number)).collect();
    accepted.retain(|choice| (subject.accept)(choice).verdict == YES);
    let least = match outcome.refusal {
        Refusal::NONE => {
            let mut all = accepted.iter();
            accepted.contains(&outcome.plan) && all.all(|choice| no_less(choice, &outcome.plan))
        }
        _ => accepted.is_empty(),
    };
    held(session, LEAST, least, plan);
}

/// One of the choices of capacities for a plan's guests, by its number from 0.
fn choice(plan: &Plan, number: u32) -> Plan {
    let mut choice = *plan;
    let mut rest = number;
    for guest in &mut choice.guests[..plan.listed().len()] {
        guest.capacity = rest % guest.period + 1;
        rest /= guest.period;
    }
    choice
}

/// Whether no guest has less in one choice than in another.
fn no_less(one: &Plan, other: &Plan) -> bool {
    let mut guests = one.listed().iter().zip(other.listed());
    guests.all(|(one, other)| one.capacity >= other.capacity)
}

fn held(session: &mut Session, name: &'static str, held: bool, plan: &Plan) {
    if session.note(name, held) {
        let outcome = (session.subject.least_capacities)(plan);
        println!("DIFFERENT: {name}: {}", show::plan(plan));
        println!("  subject: {}", show::chosen(&outcome));
    }
}
