//! The library through its wrapper, with the reference's types.

mod placed;

use compare::side::Side;
use coreshare::exports;
use reference::amendment::Located;
use reference::choice::Chosen;
use reference::dispatcher::{Answer, Dispatcher, Released, Run, Start, Ticked};
use reference::log::LogEntries;
use reference::order::Ordered;
use reference::plan::{Guest, Plan, Read, Refusal};
use reference::salvage::{Fate, Salvaged};
use reference::statement::{Stated, Statement};
use reference::verdict::Verdict;

pub const PRODUCT: Side = Side {
    read: |bytes| read(exports::read(bytes)),
    check: |plan| refusal(exports::check(&plan_in(plan))),
    write: |guest, place, buffer| refusal(exports::write(&guest_in(guest), place, buffer)),
    find: |bytes, id| refusal(exports::find(bytes, id)),
    guest_verdict: |plan, id| verdict(placed::guest_verdict(&plan_in(plan), id)),
    task_verdict: |plan, id, task| verdict(placed::task_verdict(&plan_in(plan), id, task)),
    accept: |plan| verdict(placed::accept(&plan_in(plan))),
    smallest_capacity: |plan, id| verdict(placed::smallest_capacity(&plan_in(plan), id)),
    fresh: |plan| start(placed::fresh(&plan_in(plan))),
    release: |state, id, task| released(placed::release(&state_in(state), id, task)),
    sheet: |state, pairs, answers| released(placed::sheet(&state_in(state), pairs, answers)),
    tick: |state| ticked(placed::tick(&state_in(state))),
    run: |state, ticks| run(placed::run(&state_in(state), ticks)),
    amended_find: |plan, sheet, id| located(exports::amended_find(plan, sheet, id)),
    amended_guest_verdict: |plan, sheet, id| {
        verdict(exports::amended_guest_verdict(plan, sheet, id))
    },
    amended_task_verdict: |plan, sheet, id, task| {
        verdict(exports::amended_task_verdict(plan, sheet, id, task))
    },
    amended_accept: |plan, sheet| verdict(exports::amended_accept(plan, sheet)),
    amended_smallest_capacity: |plan, sheet, id| {
        verdict(exports::amended_smallest_capacity(plan, sheet, id))
    },
    statement: |running, plan, log| stated(exports::statement(&statement_in(running), plan, log)),
    write_log: |jobs, buffer| refusal(exports::write_log(&jobs_in(jobs), buffer)),
    salvage: |file, out| salvaged(exports::salvage(file, out)),
    order: |plan, id| ordered(placed::order(&plan_in(plan), id)),
    convert: |plan, out| refusal(exports::convert(plan, out)),
    least_capacities: |plan| chosen(exports::least_capacities(&plan_in(plan))),
};

fn guest_in(guest: &Guest) -> coreshare::Guest {
    coreshare::Guest {
        id: guest.id,
        capacity: guest.capacity,
        period: guest.period,
        tasks: guest.tasks,
        charge: guest.charge,
        marks: guest.marks,
        deferrable: guest.deferrable,
        run: guest.run,
        every: guest.every,
        deadline: guest.deadline,
    }
}

fn plan_in(plan: &Plan) -> coreshare::Plan {
    coreshare::Plan {
        count: plan.count,
        guests: std::array::from_fn(|at| guest_in(&plan.guests[at])),
    }
}

fn state_in(state: &Dispatcher) -> coreshare::Dispatcher {
    coreshare::Dispatcher {
        plan: plan_in(&state.plan),
        left: state.left,
        position: state.position,
        rest: state.rest,
        wait: state.wait,
        age: state.age,
        usage: state.usage,
    }
}

fn statement_in(statement: &Statement) -> coreshare::Statement {
    coreshare::Statement {
        blocks: statement.blocks,
        margins: statement.margins,
        jobs: statement.jobs,
        longest: statement.longest,
        late: statement.late,
    }
}

fn jobs_in(jobs: &LogEntries) -> coreshare::LogEntries {
    coreshare::LogEntries {
        count: jobs.count,
        entries: jobs
            .entries
            .map(|entry| coreshare::LogEntry::new(entry.guest, entry.task, entry.age)),
    }
}

fn guest(guest: &coreshare::Guest) -> Guest {
    Guest {
        id: guest.id,
        capacity: guest.capacity,
        period: guest.period,
        tasks: guest.tasks,
        charge: guest.charge,
        marks: guest.marks,
        deferrable: guest.deferrable,
        run: guest.run,
        every: guest.every,
        deadline: guest.deadline,
    }
}

fn plan(plan: &coreshare::Plan) -> Plan {
    Plan {
        count: plan.count,
        guests: std::array::from_fn(|at| guest(&plan.guests[at])),
    }
}

fn state(state: &coreshare::Dispatcher) -> Dispatcher {
    Dispatcher {
        plan: plan(&state.plan),
        left: state.left,
        position: state.position,
        rest: state.rest,
        wait: state.wait,
        age: state.age,
        usage: state.usage,
    }
}

fn refusal(refusal: coreshare::Refusal) -> Refusal {
    Refusal {
        number: refusal.number,
        place: refusal.place,
    }
}

fn answer(answer: coreshare::Answer) -> Answer {
    Answer {
        kind: answer.kind,
        guest: answer.guest,
        task: answer.task,
        age: answer.age,
        margin: answer.margin,
    }
}

fn read(outcome: coreshare::Read) -> Read {
    Read {
        refusal: refusal(outcome.refusal),
        plan: plan(&outcome.plan),
    }
}

fn verdict(verdict: coreshare::Verdict) -> Verdict {
    Verdict {
        number: verdict.number,
        place: verdict.place,
        verdict: verdict.verdict,
        ticks: verdict.ticks,
    }
}

fn located(located: coreshare::Located) -> Located {
    Located {
        number: located.number,
        place: located.place,
        sheet: located.sheet,
    }
}

fn start(outcome: coreshare::Start) -> Start {
    Start {
        refusal: refusal(outcome.refusal),
        dispatcher: state(&outcome.dispatcher),
    }
}

fn released(outcome: coreshare::Released) -> Released {
    Released {
        refusal: refusal(outcome.refusal),
        dispatcher: state(&outcome.dispatcher),
    }
}

fn ticked(outcome: coreshare::Ticked) -> Ticked {
    Ticked {
        refusal: refusal(outcome.refusal),
        answer: answer(outcome.answer),
        dispatcher: state(&outcome.dispatcher),
    }
}

fn run(outcome: coreshare::Run) -> Run {
    Run {
        refusal: refusal(outcome.refusal),
        done: outcome.done,
        answer: answer(outcome.answer),
        dispatcher: state(&outcome.dispatcher),
    }
}

fn stated(outcome: coreshare::Stated) -> Stated {
    let statement = outcome.statement;
    Stated {
        refusal: refusal(outcome.refusal),
        statement: Statement {
            blocks: statement.blocks,
            margins: statement.margins,
            jobs: statement.jobs,
            longest: statement.longest,
            late: statement.late,
        },
        passed: outcome.passed,
        position: outcome.position,
        number: outcome.number,
    }
}

fn salvaged(outcome: coreshare::Salvaged) -> Salvaged {
    Salvaged {
        refusal: refusal(outcome.refusal),
        written: outcome.written,
        blocks: outcome.blocks,
        fates: outcome.fates.map(|fate| Fate {
            number: fate.number,
            place: fate.place,
        }),
    }
}

fn ordered(outcome: coreshare::Ordered) -> Ordered {
    Ordered {
        refusal: refusal(outcome.refusal),
        plan: plan(&outcome.plan),
    }
}

fn chosen(outcome: coreshare::Chosen) -> Chosen {
    Chosen {
        refusal: refusal(outcome.refusal),
        plan: plan(&outcome.plan),
    }
}
