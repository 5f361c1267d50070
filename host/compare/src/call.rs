//! A call of an export with its input, and its outcome whole.

mod outcome;

use crate::side::Side;
pub use outcome::Outcome;
use reference::dispatcher::Dispatcher;
use reference::log::LogEntries;
use reference::plan::{Guest, Plan, Refusal};
use reference::statement::Statement;

/// The exports' names, in the order of [`Call`].
pub const EXPORTS: [&str; 24] = [
    "cs_read",
    "cs_check",
    "cs_write",
    "cs_find",
    "cs_guest_verdict",
    "cs_task_verdict",
    "cs_accept",
    "cs_smallest_capacity",
    "cs_fresh",
    "cs_release",
    "cs_sheet",
    "cs_tick",
    "cs_run",
    "cs_amended_find",
    "cs_amended_guest_verdict",
    "cs_amended_task_verdict",
    "cs_amended_accept",
    "cs_amended_smallest_capacity",
    "cs_statement",
    "cs_write_log",
    "cs_salvage",
    "cs_order",
    "cs_convert",
    "cs_least_capacities",
];

#[derive(Clone, Debug, PartialEq)]
pub enum Call {
    Read(Vec<u8>),
    Check(Box<Plan>),
    Write(Box<Guest>, u32, Vec<u8>),
    Find(Vec<u8>, u32),
    GuestVerdict(Box<Plan>, u32),
    TaskVerdict(Box<Plan>, u32, u32),
    Accept(Box<Plan>),
    SmallestCapacity(Box<Plan>, u32),
    Fresh(Box<Plan>),
    Release(Box<Dispatcher>, u32, u32),
    Sheet(Box<Dispatcher>, Vec<u64>, Vec<u32>),
    Tick(Box<Dispatcher>),
    Run(Box<Dispatcher>, u32),
    Amended(Amended, Question),
    State(Box<Statement>, Logged),
    WriteLog(Box<LogEntries>, Vec<u8>),
    Salvage(Vec<u8>, Vec<u8>),
    Order(Box<Plan>, u32),
    Convert(Vec<u8>, Vec<u8>),
    LeastCapacities(Box<Plan>),
}

/// A plan's blocks and a log.
#[derive(Clone, Debug, PartialEq)]
pub struct Logged {
    pub plan: Vec<u8>,
    pub log: Vec<u8>,
}

/// A standing plan's blocks and an amendment sheet.
#[derive(Clone, Debug, PartialEq)]
pub struct Amended {
    pub plan: Vec<u8>,
    pub sheet: Vec<u8>,
}

/// What is asked of a plan with an amendment sheet, in the order of [`EXPORTS`].
#[derive(Clone, Copy, Debug, PartialEq)]
pub enum Question {
    Find(u32),
    Guest(u32),
    Task(u32, u32),
    Accept,
    Capacity(u32),
}

impl Call {
    /// The place of the export in [`EXPORTS`].
    pub fn export(&self) -> usize {
        match self {
            Call::Read(..) => 0,
            Call::Check(..) => 1,
            Call::Write(..) => 2,
            Call::Find(..) => 3,
            Call::GuestVerdict(..) => 4,
            Call::TaskVerdict(..) => 5,
            Call::Accept(..) => 6,
            Call::SmallestCapacity(..) => 7,
            Call::Fresh(..) => 8,
            Call::Release(..) => 9,
            Call::Sheet(..) => 10,
            Call::Tick(..) => 11,
            Call::Run(..) => 12,
            Call::Amended(_, Question::Find(..)) => 13,
            Call::Amended(_, Question::Guest(..)) => 14,
            Call::Amended(_, Question::Task(..)) => 15,
            Call::Amended(_, Question::Accept) => 16,
            Call::Amended(_, Question::Capacity(..)) => 17,
            Call::State(..) => 18,
            Call::WriteLog(..) => 19,
            Call::Salvage(..) => 20,
            Call::Order(..) => 21,
            Call::Convert(..) => 22,
            Call::LeastCapacities(..) => 23,
        }
    }

    /// The outcome of the call on one side.
    pub fn on(&self, side: &Side) -> Outcome {
        match self {
            Call::Read(bytes) => Outcome::Read((side.read)(bytes).into()),
            Call::Check(plan) => Outcome::Refusal((side.check)(plan)),
            Call::Write(guest, place, buffer) => {
                written(buffer, |lent| (side.write)(guest, *place, lent))
            }
            Call::Find(bytes, id) => Outcome::Refusal((side.find)(bytes, *id)),
            Call::GuestVerdict(plan, id) => Outcome::Verdict((side.guest_verdict)(plan, *id)),
            Call::TaskVerdict(plan, id, task) => {
                Outcome::Verdict((side.task_verdict)(plan, *id, *task))
            }
            Call::Accept(plan) => Outcome::Verdict((side.accept)(plan)),
            Call::SmallestCapacity(plan, id) => {
                Outcome::Verdict((side.smallest_capacity)(plan, *id))
            }
            Call::Fresh(plan) => Outcome::Start((side.fresh)(plan).into()),
            Call::Release(state, id, task) => {
                Outcome::Released((side.release)(state, *id, *task).into())
            }
            Call::Sheet(state, pairs, answers) => answered(side, state, pairs, answers),
            Call::Tick(state) => Outcome::Ticked((side.tick)(state).into()),
            Call::Run(state, ticks) => Outcome::Run((side.run)(state, *ticks).into()),
            Call::Amended(of, question) => asked(side, of, *question),
            Call::State(running, of) => {
                Outcome::Stated((side.statement)(running, &of.plan, &of.log).into())
            }
            Call::WriteLog(jobs, buffer) => written(buffer, |lent| (side.write_log)(jobs, lent)),
            Call::Salvage(file, out) => salvaged(side, file, out),
            Call::Order(plan, id) => Outcome::Ordered((side.order)(plan, *id).into()),
            Call::Convert(plan, out) => converted(side, plan, out),
            Call::LeastCapacities(plan) => Outcome::Chosen((side.least_capacities)(plan).into()),
        }
    }

    /// The answers to the pairs of a sheet that is not refused whole.
    pub fn answers<'a>(&self, outcome: &'a Outcome) -> &'a [u32] {
        match (self, outcome) {
            (Call::Sheet(_, pairs, _), Outcome::Sheet(next, answers))
                if next.refusal.number == 0 =>
            {
                &answers[..pairs.len()]
            }
            _ => &[],
        }
    }
}

fn written(buffer: &[u8], write: impl Fn(&mut [u8]) -> Refusal) -> Outcome {
    let mut lent = buffer.to_vec();
    let refusal = write(&mut lent);
    Outcome::Written(refusal, lent)
}

fn asked(side: &Side, of: &Amended, question: Question) -> Outcome {
    let (plan, sheet) = (&of.plan[..], &of.sheet[..]);
    match question {
        Question::Find(id) => Outcome::Located((side.amended_find)(plan, sheet, id)),
        Question::Guest(id) => Outcome::Verdict((side.amended_guest_verdict)(plan, sheet, id)),
        Question::Task(id, task) => {
            Outcome::Verdict((side.amended_task_verdict)(plan, sheet, id, task))
        }
        Question::Accept => Outcome::Verdict((side.amended_accept)(plan, sheet)),
        Question::Capacity(id) => {
            Outcome::Verdict((side.amended_smallest_capacity)(plan, sheet, id))
        }
    }
}

/// Places behind the lent answers that no call may write.
const GUARDS: [u32; 4] = [0xA5A5_A5A5; 4];

/// The answer places are a part of a longer list, and the whole list is kept.
fn answered(side: &Side, state: &Dispatcher, pairs: &[u64], answers: &[u32]) -> Outcome {
    let mut kept = [answers, &GUARDS].concat();
    let outcome = (side.sheet)(state, pairs, &mut kept[..answers.len()]);
    Outcome::Sheet(outcome.into(), kept)
}

/// Bytes behind a lent output that no call may write.
const BEHIND: [u8; 16] = [0xA5; 16];

/// The output is a part of a longer list of bytes, and the whole list is kept.
fn converted(side: &Side, plan: &[u8], out: &[u8]) -> Outcome {
    let mut kept = [out, &BEHIND].concat();
    let refusal = (side.convert)(plan, &mut kept[..out.len()]);
    Outcome::Written(refusal, kept)
}

/// The output is a part of a longer list of bytes, and the whole list is kept.
fn salvaged(side: &Side, file: &[u8], out: &[u8]) -> Outcome {
    let mut kept = [out, &BEHIND].concat();
    let outcome = (side.salvage)(file, &mut kept[..out.len()]);
    Outcome::Salvaged(outcome.into(), kept)
}
