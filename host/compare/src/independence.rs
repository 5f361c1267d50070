//! The independence of a tenant, from outside and on one side alone: two histories that agree on what is
//! the guest's own give it the same view, whatever the other guests are and do.

mod calls;
mod twins;
mod view;

use crate::plans::{FULL, SMALL, TINY};
use crate::session::Session;
use crate::show;
use twins::{Twins, twins};
use view::{Event, View};

/// The check's name in the report.
pub const HISTORIES: &str = "independence: histories";

/// Two plans that one guest cannot tell apart, and some pairs of histories of them.
pub fn histories(session: &mut Session) {
    let size = session.random.pick(&[TINY, SMALL, SMALL, FULL]);
    let Some(mut twins) = twins(&mut session.random, &session.subject, size) else {
        return;
    };
    for _ in 0..2 {
        twins.call_anew(&mut session.random);
        let [first, second] = twins.views(&session.subject);
        match first == second {
            true => note(session, &first),
            false => felt(session, twins.clone()),
        }
    }
}

fn note(session: &mut Session, view: &View) {
    session.note(HISTORIES, true);
    session.count("independence: ticks", view.len() as u64);
    for event in view.iter().flatten() {
        session.count(name(event), 1);
    }
}

/// What the report counts an event as.
fn name(event: &Event) -> &'static str {
    match event {
        Event::Answered(0) => "independence: taken",
        Event::Answered(_) => "independence: refused",
        Event::Elsewhere => "independence: elsewhere",
        Event::Idled => "independence: idled",
        Event::Worked { .. } => "independence: worked",
        Event::Finished { .. } => "independence: finishes",
    }
}

/// Prints the first two histories that a guest tells apart, with as few calls as it still does.
fn felt(session: &mut Session, twins: Twins) {
    if !session.note(HISTORIES, false) {
        return;
    }
    let twins = twins.fewest(&session.subject);
    println!("FELT BY GUEST {}:", twins.guest().id);
    for (history, name) in ["one", "other"].into_iter().enumerate() {
        println!("  {name}: {}", show::plan(&twins.plans[history]));
        for (time, tries) in twins.scripts[history].iter().enumerate() {
            for tried in tries {
                println!("    before tick {time}: {tried}");
            }
        }
    }
    let [first, second] = twins.views(&session.subject);
    if let Some(time) = twins.told_apart(&session.subject) {
        let (first, second) = (&first[time], &second[time]);
        println!("  up to tick {time} it sees {first:?} in one, {second:?} in the other");
    }
}
