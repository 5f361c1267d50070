//! Wrong choices of capacities, each of which the comparison of choices alone must find.

#[path = "choice/capacities.rs"]
mod capacities;
#[path = "choice/kept.rs"]
mod kept;
#[path = "choice/refusals.rs"]
mod refusals;

use compare::choice;
use compare::session::Session;
use compare::side::{REFERENCE, Side};
use reference::choice::{Chosen, least_capacities};
use reference::plan::{Plan, Refusal};
use reference::verdict::works;

/// What small and some random plans show of a side.
fn compared(side: Side) -> Session {
    let mut session = Session::new(side, 1);
    session.scans = true;
    choice::compare(&mut session);
    for _ in 0..10 {
        choice::round(&mut session);
    }
    session
}

/// Whether nothing wrong is found with a choice, all else being right.
fn passes(wrong: fn(&Plan) -> Chosen) -> bool {
    let side = Side {
        least_capacities: wrong,
        ..REFERENCE
    };
    compared(side).found_nothing()
}

/// A refusal, with the plan as handed in.
fn refused(plan: &Plan, number: u32, place: usize) -> Chosen {
    Chosen {
        refusal: Refusal::new(number, place as u32),
        plan: *plan,
    }
}

/// Whether the guests of a plan are searched for their capacities.
fn is_searched(plan: &Plan) -> bool {
    [0, 11].contains(&least_capacities(plan).refusal.number)
}

/// The outcome where the guests are gone through in another order, or searched in another way: the search is told the
/// plan with what is chosen so far, and the guest's place.
fn searched(
    plan: &Plan,
    places: impl Iterator<Item = usize>,
    search: impl Fn(&Plan, usize) -> Option<u32>,
) -> Chosen {
    let mut chosen = *plan;
    for place in places {
        match search(&chosen, place) {
            Some(capacity) => chosen.guests[place].capacity = capacity,
            None => return refused(plan, 11, place),
        }
    }
    Chosen {
        refusal: Refusal::NONE,
        plan: chosen,
    }
}

/// The same from the highest guest down, where the guests are searched at all.
fn by(plan: &Plan, search: impl Fn(&Plan, usize) -> Option<u32>) -> Chosen {
    match is_searched(plan) {
        true => searched(plan, 0..plan.listed().len(), search),
        false => least_capacities(plan),
    }
}

/// The smallest capacity that works for a guest.
fn smallest(plan: &Plan, guest: usize) -> Option<u32> {
    (1..=plan.guests[guest].period).find(|capacity| works(plan, guest, *capacity))
}

/// The right outcome; where that is no refusal, the plan is changed.
fn with(plan: &Plan, change: impl Fn(&mut Plan)) -> Chosen {
    let mut outcome = least_capacities(plan);
    if outcome.refusal == Refusal::NONE {
        change(&mut outcome.plan);
    }
    outcome
}

/// The right refusals, and the plan changed where it is refused by one of these numbers.
fn with_refused(plan: &Plan, numbers: &[u32], change: impl Fn(&mut Plan)) -> Chosen {
    let mut outcome = least_capacities(plan);
    if numbers.contains(&outcome.refusal.number) {
        change(&mut outcome.plan);
    }
    outcome
}

#[test]
fn the_reference_is_right_about_choices() {
    let session = compared(REFERENCE);
    assert!(session.found_nothing());
    for name in [
        choice::ACCEPTED,
        choice::AGAIN,
        choice::ONE_BY_ONE,
        choice::LEAST,
    ] {
        assert!(session.held(name));
    }
}

#[test]
fn what_is_put_together_rightly_is_right() {
    assert!(passes(|plan| by(plan, smallest)));
    assert!(passes(|plan| with(plan, |_| ())));
    assert!(passes(|plan| with_refused(plan, &[], |_| ())));
}
