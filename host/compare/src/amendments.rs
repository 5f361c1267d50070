//! Amendment sheets against standing plans: small ones, all of them; then random ones.

mod made;
mod small;

use crate::call::{Amended, Call, Question};
use crate::plans::{FULL, LARGE, SMALL, TINY, some_task};
use crate::session::Session;
use crate::show;
use crate::side::Side;
use made::{amended, asked};
use reference::amendment::replaced;
use reference::plan::{Plan, Refusal, read};
use reference::verdict::Verdict;

/// The check's name in the report.
pub const AS_REPLACED: &str = "pairs as replaced plans";

/// Small plans with small sheets, all of them.
pub fn compare(session: &mut Session) {
    small::compare(session);
}

/// Some random plans with their sheets.
pub fn round(session: &mut Session) {
    for _ in 0..20 {
        let size = session.random.pick(&[TINY, SMALL, SMALL]);
        let of = amended(&mut session.random, size);
        let (id, task) = guest_and_task(session, &of);
        questions(session, &of, id, task);
    }
    if session.random.once_in(4) {
        let of = amended(&mut session.random, FULL);
        let (id, task) = guest_and_task(session, &of);
        questions(session, &of, id, task);
    }
    // A subject that scans for a capacity cannot be asked for one among a million.
    if !session.scans && session.random.once_in(4) {
        let of = amended(&mut session.random, LARGE);
        let (id, task) = guest_and_task(session, &of);
        session.compare(Call::Amended(of.clone(), Question::Find(id)));
        as_replaced(session, &of, id, task);
    }
}

/// A guest to ask for, and a task of it as it is with the sheet's blocks replaced.
fn guest_and_task(session: &mut Session, of: &Amended) -> (u32, u32) {
    let bytes = replaced(&of.plan, &of.sheet);
    let plan = read(bytes.as_ref().unwrap_or(&of.plan)).plan;
    let id = asked(&mut session.random, &plan, &of.sheet);
    (id, some_task(&mut session.random, &plan, id))
}

/// Every question about one guest and one of its tasks. Blocks that are not refused may have long periods: verdicts
/// are asked for where even a wrong side that scans, in the plan as it stands or as amended, is soon done.
fn questions(session: &mut Session, of: &Amended, id: u32, task: u32) {
    session.compare(Call::Amended(of.clone(), Question::Find(id)));
    let amended = replaced(&of.plan, &of.sheet).unwrap_or_default();
    if is_short(&of.plan) && is_short(&amended) {
        for question in [
            Question::Guest(id),
            Question::Task(id, task),
            Question::Accept,
            Question::Capacity(id),
        ] {
            session.compare(Call::Amended(of.clone(), question));
        }
        as_replaced(session, of, id, task);
    }
}

/// Whether a plan is refused or has short periods only.
fn is_short(bytes: &[u8]) -> bool {
    let plan = read(bytes).plan;
    let guests = plan.listed().iter();
    let mut numbers = guests.flat_map(|guest| guest.every.iter().chain([&guest.period]));
    numbers.all(|number| *number <= 500)
}

/// What the subject says of a pair that is not refused is what it says of the plan with those blocks replaced, as
/// it reads that itself.
fn as_replaced(session: &mut Session, of: &Amended, id: u32, task: u32) {
    let Ok(bytes) = replaced(&of.plan, &of.sheet) else {
        return;
    };
    let outcome = (session.subject.read)(&bytes);
    let pair = of_pair(&session.subject, of, id, task);
    let whole = of_plan(&session.subject, &outcome.plan, id, task);
    let held = outcome.refusal == Refusal::NONE && pair == whole;
    if session.note(AS_REPLACED, held) {
        println!("DIFFERENT: guest {id} task {task} of {}", show::amended(of));
        println!("  pair:     {pair:?}");
        println!("  replaced: {:?} {whole:?}", outcome.refusal);
    }
}

fn of_pair(side: &Side, of: &Amended, id: u32, task: u32) -> [Verdict; 4] {
    let (plan, sheet) = (&of.plan, &of.sheet);
    [
        (side.amended_guest_verdict)(plan, sheet, id),
        (side.amended_task_verdict)(plan, sheet, id, task),
        (side.amended_accept)(plan, sheet),
        (side.amended_smallest_capacity)(plan, sheet, id),
    ]
}

fn of_plan(side: &Side, plan: &Plan, id: u32, task: u32) -> [Verdict; 4] {
    [
        (side.guest_verdict)(plan, id),
        (side.task_verdict)(plan, id, task),
        (side.accept)(plan),
        (side.smallest_capacity)(plan, id),
    ]
}
