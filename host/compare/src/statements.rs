//! Logs of finished jobs against running statements: small ones, all of them; then random ones.

mod blocks;
mod logs;
mod made;
mod ranges;
mod writer;

use crate::call::{Call, Logged};
use crate::plans::{FULL, LARGE, SMALL, TINY};
use crate::session::Session;
use crate::show;
use reference::plan::{BLOCK, Plan};
use reference::samples::full;
use reference::statement::{Stated, Statement};

/// The check's name in the report.
pub const CUT: &str = "cut logs as whole ones";

/// Small logs, statements and jobs to write, all of them.
pub fn compare(session: &mut Session) {
    blocks::compare(session);
    logs::compare(session);
    ranges::compare(session);
    writer::compare(session);
}

/// Some random logs with their plans and running statements, and some jobs to write.
pub fn round(session: &mut Session) {
    for _ in 0..20 {
        let size = session.random.pick(&[TINY, SMALL, FULL, LARGE]);
        let (running, of) = made::logged(&mut session.random, size);
        stated(session, &running, &of);
        let at = session.random.below(of.log.len() / BLOCK + 1);
        cut(session, &running, &of, at);
        let call = made::write(&mut session.random);
        session.compare(call);
    }
}

fn stated(session: &mut Session, running: &Statement, of: &Logged) {
    session.compare(Call::State(Box::new(*running), of.clone()));
}

/// What the subject says of a log of whole blocks is what it says of its two parts, one after the other.
fn cut(session: &mut Session, running: &Statement, of: &Logged, at: usize) {
    if !of.log.len().is_multiple_of(BLOCK) {
        return;
    }
    let state = session.subject.statement;
    let (before, after) = of.log.split_at(BLOCK * at);
    let first = state(running, &of.plan, before);
    let second = state(&first.statement, &of.plan, after);
    let (whole, parts) = (
        state(running, &of.plan, &of.log),
        joined(&first, &second, at as u64),
    );
    if session.note(CUT, parts == whole) {
        println!("DIFFERENT: cut after {at} blocks: {}", show::logged(of));
        println!("  whole: {}", show::stated(&whole));
        println!("  parts: {}", show::stated(&parts));
    }
}

/// The outcomes of a log's two parts as one, the first part having so many blocks.
fn joined(first: &Stated, second: &Stated, blocks: u64) -> Stated {
    let (position, number) = match (first.passed, second.passed) {
        (0, 0) => (0, 0),
        (0, _) => (second.position.wrapping_add(blocks), second.number),
        _ => (first.position, first.number),
    };
    Stated {
        passed: first.passed.wrapping_add(second.passed),
        position,
        number,
        ..*second
    }
}

/// A statement in which so many blocks are counted, and nothing else.
fn with_blocks(blocks: u64) -> Statement {
    Statement {
        blocks,
        ..Statement::EMPTY
    }
}

/// All guests and tasks that a plan can have, each task with a deadline of its own: 100 for the first line, one more
/// for each next. Every other guest is Deferrable, as in an old plan.
fn ladder() -> Plan {
    let mut plan = full();
    for guest in plan.guests.iter_mut().skip(1).step_by(2) {
        guest.deferrable = 1;
    }
    for (line, deadline) in
        (100..).zip(plan.guests.iter_mut().flat_map(|guest| &mut guest.deadline))
    {
        *deadline = line;
    }
    plan
}
