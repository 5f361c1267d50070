//! Prints a call and its two outcomes, leaving out what is zero.

mod salvage;
mod statements;

use crate::call::{Amended, Call, EXPORTS, Outcome, Question};
use crate::side::{REFERENCE, Side};
use reference::choice::Chosen;
use reference::dispatcher::{Dispatcher, parts};
use reference::order::Ordered;
use reference::plan::{Guest, MOST_TASKS, Plan};
pub use salvage::salvaged;
use statements::{jobs, statement};
pub use statements::{logged, stated};
use std::fmt::Display;

/// Prints a call on which the two sides differ.
pub fn difference(call: &Call, subject: &Side) {
    println!("DIFFERENT: {}", input(call));
    println!("  reference: {}", outcome(&call.on(&REFERENCE)));
    println!("  subject:   {}", outcome(&call.on(subject)));
}

fn input(call: &Call) -> String {
    let name = EXPORTS[call.export()];
    match call {
        Call::Read(bytes) => format!("{name} {}", blocks(bytes)),
        Call::Find(bytes, id) => format!("{name} id {id} {}", blocks(bytes)),
        Call::Write(of, place, buffer) => {
            format!("{name} place {place} length {} {}", buffer.len(), guest(of))
        }
        Call::Check(of) | Call::Accept(of) | Call::Fresh(of) | Call::LeastCapacities(of) => {
            format!("{name} {}", plan(of))
        }
        Call::GuestVerdict(of, id) | Call::SmallestCapacity(of, id) | Call::Order(of, id) => {
            format!("{name} id {id} {}", plan(of))
        }
        Call::TaskVerdict(of, id, task) => format!("{name} id {id} task {task} {}", plan(of)),
        Call::Release(of, id, task) => format!("{name} id {id} task {task} {}", state(of)),
        Call::Sheet(of, all, answers) => {
            let all = pairs(all);
            format!("{name} pairs {all} answers {answers:?} {}", state(of))
        }
        Call::Tick(of) => format!("{name} {}", state(of)),
        Call::Run(of, ticks) => format!("{name} ticks {ticks} {}", state(of)),
        Call::Amended(of, question) => format!("{name} {} {}", asked(*question), amended(of)),
        Call::State(running, of) => format!("{name} {} {}", statement(running), logged(of)),
        Call::WriteLog(of, buffer) => format!("{name} length {} {}", buffer.len(), jobs(of)),
        Call::Salvage(bytes, out) | Call::Convert(bytes, out) => {
            format!("{name} room {} {}", out.len(), blocks(bytes))
        }
    }
}

fn asked(question: Question) -> String {
    match question {
        Question::Find(id) | Question::Guest(id) | Question::Capacity(id) => format!("id {id}"),
        Question::Task(id, task) => format!("id {id} task {task}"),
        Question::Accept => String::new(),
    }
}

/// The blocks of the plan and of the sheet.
pub fn amended(of: &Amended) -> String {
    format!("plan {} sheet {}", blocks(&of.plan), blocks(&of.sheet))
}

fn outcome(outcome: &Outcome) -> String {
    match outcome {
        Outcome::Read(read) => format!("{:?} {}", read.refusal, plan(&read.plan)),
        Outcome::Refusal(refusal) => format!("{refusal:?}"),
        Outcome::Written(refusal, bytes) => format!("{refusal:?} {}", blocks(bytes)),
        Outcome::Verdict(verdict) => format!("{verdict:?}"),
        Outcome::Located(located) => format!("{located:?}"),
        Outcome::Stated(outcome) => stated(outcome),
        Outcome::Salvaged(outcome, out) => salvaged(outcome, out),
        Outcome::Ordered(outcome) => ordered(outcome),
        Outcome::Chosen(outcome) => chosen(outcome),
        Outcome::Start(start) => format!("{:?} {}", start.refusal, state(&start.dispatcher)),
        Outcome::Released(next) => format!("{:?} {}", next.refusal, state(&next.dispatcher)),
        Outcome::Sheet(next, answers) => {
            let then = state(&next.dispatcher);
            format!(
                "{:?} answers and behind them {answers:?} {then}",
                next.refusal
            )
        }
        Outcome::Ticked(next) => {
            let then = state(&next.dispatcher);
            format!("{:?} {:?} {then}", next.refusal, next.answer)
        }
        Outcome::Run(next) => {
            let then = state(&next.dispatcher);
            format!(
                "{:?} done {} {:?} {then}",
                next.refusal, next.done, next.answer
            )
        }
    }
}

/// The refusal, and the plan that was handed back.
pub fn ordered(of: &Ordered) -> String {
    format!("{:?} {}", of.refusal, plan(&of.plan))
}

/// The same of a choice.
pub fn chosen(of: &Chosen) -> String {
    format!("{:?} {}", of.refusal, plan(&of.plan))
}

/// Each pair as guest part/task.
pub fn pairs(of: &[u64]) -> String {
    let each: Vec<String> = of
        .iter()
        .map(|pair| {
            let (guest, task) = parts(*pair);
            format!("{guest}/{task}")
        })
        .collect();
    format!("[{}]", each.join(" "))
}

/// The length and each byte that is not zero, with its place.
pub fn blocks(bytes: &[u8]) -> String {
    format!("{} bytes [{}]", bytes.len(), not_zero(bytes))
}

/// The count and each record that is not zero, with its place.
pub fn plan(plan: &Plan) -> String {
    let guests: Vec<String> = plan
        .guests
        .iter()
        .enumerate()
        .filter(|(_, of)| **of != Guest::default())
        .map(|(at, of)| format!("{at}: {}", guest(of)))
        .collect();
    format!("count {} {{{}}}", plan.count, guests.join("; "))
}

/// The guest as id, capacity/period, charge, marks with task 1's last, the number of its kind, number of tasks, and
/// each entry as run/period/deadline.
fn guest(guest: &Guest) -> String {
    let entry = |at: usize| [guest.run[at], guest.every[at], guest.deadline[at]];
    let tasks: Vec<String> = (0..MOST_TASKS)
        .filter(|at| entry(*at) != [0; 3])
        .map(|at| {
            let [run, every, deadline] = entry(at);
            format!("{}: {run}/{every}/{deadline}", at + 1)
        })
        .collect();
    let Guest {
        id,
        capacity,
        period,
        charge,
        marks,
        deferrable,
        ..
    } = guest;
    let tasks = format!("tasks {} ({})", guest.tasks, tasks.join(", "));
    let kind = format!("marks {marks:b} deferrable {deferrable}");
    format!("id {id} {capacity}/{period} charge {charge} {kind} {tasks}")
}

fn state(state: &Dispatcher) -> String {
    let columns: [(&str, &[u32]); 5] = [
        ("left", &state.left),
        ("position", &state.position),
        ("rest", &state.rest),
        ("wait", &state.wait),
        ("age", &state.age),
    ];
    let columns: Vec<String> = columns
        .iter()
        .map(|(name, column)| format!("{name} [{}]", not_zero(column)))
        .collect();
    let usage = not_zero(&state.usage);
    format!(
        "{} {} usage [{usage}]",
        plan(&state.plan),
        columns.join(" ")
    )
}

/// Each number that is not zero, with its place.
fn not_zero<T: Default + Display + PartialEq>(numbers: &[T]) -> String {
    let set: Vec<String> = numbers
        .iter()
        .enumerate()
        .filter(|(_, number)| **number != T::default())
        .map(|(at, number)| format!("{at}:{number}"))
        .collect();
    set.join(" ")
}
