//! What is claimed of a converted plan, held to what the subject itself writes, reads and judges.

use crate::session::Session;
use crate::show;
use reference::plan::{Plan, Read, Refusal, read};
use reference::samples::periodic;
use reference::verdict::{Verdict, YES};

/// The checks' names in the report.
pub const READ: &str = "converted plans read";
pub const AGAIN: &str = "converted again the same";
pub const OWN: &str = "Periodic plans come back";
pub const GUESTS: &str = "guests fitted stay so";
pub const TASKS: &str = "tasks met or quoted stay so";
pub const ACCEPTED: &str = "accepted plans stay so";

/// A fact that is no check: so many responses became smaller.
const SMALLER: &str = "responses made smaller";

/// What the subject writes it reads as the plan with each Deferrable guest made Periodic, and does not change again; a
/// plan with no Deferrable guest comes back as its own bytes.
pub fn bytes(session: &mut Session, plan: &[u8]) {
    let before = read(plan).plan;
    let Some(written) = on_subject(session, plan) else {
        return;
    };
    let right = Read {
        refusal: Refusal::NONE,
        plan: periodic(before),
    };
    let reads = (session.subject.read)(&written) == right;
    held(session, READ, reads, plan);
    let again = on_subject(session, &written);
    held(session, AGAIN, again.as_ref() == Some(&written), plan);
    if !before.has_deferrable() {
        held(session, OWN, written == plan, plan);
    }
}

/// What the subject says of the plan that it writes, beside what it says of the plan: every guest fitted stays fitted
/// and every task met or quoted stays so, with a response no larger; and a plan accepted stays accepted.
pub fn verdicts(session: &mut Session, plan: &[u8]) {
    let Some(written) = on_subject(session, plan) else {
        return;
    };
    let [old, new] = [read(plan).plan, read(&written).plan];
    let subject = session.subject;
    if (subject.accept)(&old).verdict == YES {
        let stays = (subject.accept)(&new).verdict == YES;
        held(session, ACCEPTED, stays, plan);
    }
    for guest in old.listed() {
        let both = [&old, &new].map(|of| (subject.guest_verdict)(of, guest.id));
        beside(session, GUESTS, plan, both);
        for task in 1..=guest.tasks {
            let both = [&old, &new].map(|of| (subject.task_verdict)(of, guest.id, task));
            beside(session, TASKS, plan, both);
        }
    }
}

/// Holds a verdict of the new plan to that of the old one, where that one has a response.
fn beside(session: &mut Session, name: &'static str, plan: &[u8], [before, after]: [Verdict; 2]) {
    if before.ticks > 0 {
        let met = before.verdict != YES || after.verdict == YES;
        let quoted = (1..=before.ticks).contains(&after.ticks);
        held(session, name, met && quoted, plan);
        session.count(SMALLER, (after.ticks < before.ticks).into());
    }
}

/// What the subject writes, unless it refuses the plan.
fn on_subject(session: &Session, plan: &[u8]) -> Option<Vec<u8>> {
    let mut out = vec![0; plan.len()];
    let refusal = (session.subject.convert)(plan, &mut out);
    (refusal == Refusal::NONE).then_some(out)
}

fn held(session: &mut Session, name: &'static str, held: bool, plan: &[u8]) {
    if session.note(name, held) {
        let written = on_subject(session, plan).unwrap_or_default();
        let [old, new]: [Plan; 2] = [plan, &written].map(|bytes| read(bytes).plan);
        println!("DIFFERENT: {name}: {}", show::plan(&old));
        println!("  subject: {} {}", show::plan(&new), show::blocks(&written));
    }
}
