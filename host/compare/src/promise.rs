//! The promise to a tenant, from outside: in every history a quoted task finishes by its response,
//! and no release of it that is due is refused, whether it comes alone or in a sheet; that of a bound task
//! is due at the start of its guest's period only. The numbers beside the state are held to the history too.

mod play;
mod script;

#[cfg(test)]
mod tests;

use crate::plans::{self, SMALL, TINY};
use crate::session::Session;
use crate::show;
use crate::side::Side;
use crate::tries::{Script, fewest};
use play::{Quoted, Seen, play};
use reference::plan::Plan;
use reference::samples::periodic;
use script::script;

/// One plan of Periodic guests with quoted tasks, and some histories against it.
pub fn histories(session: &mut Session) {
    let size = session.random.pick(&[TINY, TINY, SMALL]);
    let plan = periodic(plans::clean(&mut session.random, size));
    let quoted = quoted(&session.subject, &plan);
    if quoted.is_empty() {
        return;
    }
    for _ in 0..4 {
        let script = script(session, &plan, &quoted);
        match play(&session.subject, &plan, &quoted, &script) {
            Ok(seen) => note(session, &seen),
            Err(_) => broken(session, &plan, &quoted, script),
        }
    }
}

/// The tasks that are quoted a response: met R or unmet R.
fn quoted(side: &Side, plan: &Plan) -> Vec<Quoted> {
    let mut all = Vec::new();
    for (guest, own) in plan.listed().iter().enumerate() {
        for task in own.places() {
            let verdict = (side.task_verdict)(plan, own.id, task as u32 + 1);
            if verdict.ticks > 0 {
                all.push(Quoted {
                    guest,
                    task,
                    response: verdict.ticks,
                });
            }
        }
    }
    all
}

fn note(session: &mut Session, seen: &Seen) {
    session.note("promise: histories", true);
    session.note_many("promise: quoted jobs", seen.jobs.finished);
    session.count("promise: of them took R", seen.jobs.at_the_response);
    session.count("promise: of them bound", seen.bound.finished);
    session.count("promise: bound and took R", seen.bound.at_the_response);
    session.count("promise: sheets", seen.sheets);
    session.count("promise: refused whole", seen.refused_whole);
}

/// Prints the first history that breaks the promise, with as few releases as still do.
fn broken(session: &mut Session, plan: &Plan, quoted: &[Quoted], script: Script) {
    if !session.note("promise: histories", false) {
        return;
    }
    let script = fewest(script, |fewer| {
        play(&session.subject, plan, quoted, fewer).is_err()
    });
    println!("BROKEN PROMISE: {}", show::plan(plan));
    for (time, tries) in script.iter().enumerate() {
        for tried in tries {
            println!("  before tick {time}: {tried}");
        }
    }
    if let Err(how) = play(&session.subject, plan, quoted, &script) {
        println!("  {how}");
    }
}
