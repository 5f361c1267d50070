//! What the printing program writes.

#[cfg(test)]
mod tests;

use crate::plan::{Guest, Plan, read};
use crate::verdict::{UNJUDGED, YES, accept, guest_verdict, task_verdict};

/// The most bytes that the program reads from its input.
pub const MOST_INPUT: usize = 4_097;

/// The text for an input, of which at most 4,097 bytes are read.
pub fn text(input: &[u8]) -> String {
    let outcome = read(&input[..input.len().min(MOST_INPUT)]);
    let refusal = outcome.refusal;
    if refusal.number != 0 {
        return format!("refused {} block {}\n", refusal.number, refusal.place);
    }
    let plan = outcome.plan;
    let guests: String = plan
        .listed()
        .iter()
        .map(|guest| guest_text(&plan, guest))
        .collect();
    guests + plan_line(&plan)
}

fn guest_text(plan: &Plan, guest: &Guest) -> String {
    let tasks: String = (1..=guest.tasks)
        .map(|task| task_line(plan, guest.id, task))
        .collect();
    guest_line(plan, guest.id) + &tasks
}

fn guest_line(plan: &Plan, id: u32) -> String {
    let verdict = guest_verdict(plan, id);
    match verdict.verdict {
        YES => format!("guest {id} fitted {}\n", verdict.ticks),
        _ => format!("guest {id} unfit\n"),
    }
}

fn task_line(plan: &Plan, id: u32, task: u32) -> String {
    let verdict = task_verdict(plan, id, task);
    match (verdict.verdict, verdict.ticks) {
        (YES, r) => format!("task {task} met {r}\n"),
        (UNJUDGED, _) => format!("task {task} unjudged\n"),
        (_, 0) => format!("task {task} unmet\n"),
        (_, r) => format!("task {task} unmet {r}\n"),
    }
}

fn plan_line(plan: &Plan) -> &'static str {
    match accept(plan).verdict {
        YES => "plan accepted\n",
        _ => "plan not accepted\n",
    }
}
