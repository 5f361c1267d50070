//! Damaged plan files: small ones, all of them; then random ones.

mod blocks;
mod files;
mod made;
mod outputs;

use crate::call::Call;
use crate::plans::{FULL, LARGE, SMALL, TINY};
use crate::session::Session;
use crate::show;
use reference::plan::{LONGEST_PLAN, Plan, Refusal, read};
use reference::salvage::{Fate, Salvaged};
use reference::samples::{full, plan_a_bound};

/// The checks' names in the report.
pub const READ: &str = "salvaged files read";
pub const AGAIN: &str = "salvaged again the same";
pub const RIGHT: &str = "right files come back";

/// Small files and outputs, all of them.
pub fn compare(session: &mut Session) {
    blocks::compare(session);
    files::compare(session);
    outputs::compare(session);
}

/// Some random files and outputs.
pub fn round(session: &mut Session) {
    for _ in 0..20 {
        let size = session.random.pick(&[TINY, SMALL, FULL, LARGE]);
        let (file, room) = made::file(&mut session.random, size);
        salvaged(session, &file, room);
        whole(session, &file);
    }
}

/// Something in every place of an output.
pub(crate) fn output(room: usize) -> Vec<u8> {
    (0..room).map(|at| 0xC3 ^ at as u8).collect()
}

fn salvaged(session: &mut Session, file: &[u8], room: usize) {
    session.compare(Call::Salvage(file.to_vec(), output(room)));
}

/// The file with an output that is long enough, and what holds of the subject then: what it writes it reads without
/// refusal and gives back the same, and so it does with a file that is right.
fn whole(session: &mut Session, file: &[u8]) {
    salvaged(session, file, LONGEST_PLAN + 3);
    let (outcome, bytes) = on_subject(session, file);
    if outcome.refusal == Refusal::NONE {
        let plan = (session.subject.read)(&bytes);
        held(session, READ, plan.refusal == Refusal::NONE, file);
        comes_back(session, AGAIN, &bytes);
    }
    if read(file).refusal == Refusal::NONE {
        comes_back(session, RIGHT, file);
    }
}

/// What the subject says of a file, and what it writes.
fn on_subject(session: &Session, file: &[u8]) -> (Salvaged, Vec<u8>) {
    let mut out = vec![0; LONGEST_PLAN];
    let outcome = (session.subject.salvage)(file, &mut out);
    out.truncate(outcome.written as usize);
    (outcome, out)
}

/// The subject writes the file itself, and keeps each block at its own place.
fn comes_back(session: &mut Session, name: &'static str, file: &[u8]) {
    let (outcome, bytes) = on_subject(session, file);
    let blocks = outcome.fates.iter().take(outcome.blocks as usize);
    let all_kept = (0..).zip(blocks).all(|(at, fate)| *fate == Fate::kept(at));
    held(session, name, bytes == file && all_kept, file);
}

fn held(session: &mut Session, name: &'static str, held: bool, file: &[u8]) {
    if session.note(name, held) {
        let (outcome, bytes) = on_subject(session, file);
        println!("DIFFERENT: {name}: {}", show::blocks(file));
        println!("  subject: {}", show::salvaged(&outcome, &bytes));
    }
}

/// A full plan whose guests are of all sorts: kind 1, and kind 2 with marks, Deferrable, or both.
pub(crate) fn mixed() -> Plan {
    let mut plan = full();
    for (at, guest) in plan.guests.iter_mut().enumerate() {
        guest.tasks = 16 - at as u32;
        guest.charge = 300 * at as u16;
        guest.marks = [0, 1, 0, 3, 0x80, 0, 0x3FF, 0x100][at];
        guest.deferrable = [0, 0, 1, 1, 0, 0, 1, 0][at];
    }
    plan
}

/// Plan A with a bound task and Deferrable guests in each way.
pub(crate) fn small_plans() -> Vec<Plan> {
    let mut plans = Vec::new();
    for marks in 0..4 {
        for kinds in 0..4 {
            let mut plan = plan_a_bound(marks);
            plan.guests[0].deferrable = kinds & 1;
            plan.guests[1].deferrable = kinds >> 1;
            plans.push(plan);
        }
    }
    plans
}
