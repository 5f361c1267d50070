//! Holds plain Rust to the reference, as the library is held: what is measured must be right.

mod capacity;
mod choice;
mod convert;
mod order;
mod salvage;
mod statement;

use crate::exports;
use compare::session::Session;
use compare::side::Side;
use reference::amendment::Located;
use reference::dispatcher as dispatching;
use reference::plan::{Guest, Plan, Read, Refusal};
use reference::verdict::Verdict;
use std::time::Duration;

const PLAIN: Side = Side {
    read,
    check: |plan| refusal(plan_in(plan).check().err().unwrap_or_default()),
    write: |guest, place, buffer| refusal(exports::write(guest_in(guest), place, buffer)),
    find,
    guest_verdict: |plan, id| verdict(exports::guest_verdict(plan_in(plan), id)),
    task_verdict: |plan, id, task| verdict(exports::task_verdict(plan_in(plan), id, task)),
    accept: |plan| verdict(exports::accept(plan_in(plan))),
    smallest_capacity: |plan, id| verdict(exports::smallest_capacity(plan_in(plan), id)),
    fresh,
    release,
    sheet,
    tick,
    run,
    amended_find: |plan, sheet, id| located(exports::amended_find(plan, sheet, id)),
    amended_guest_verdict: |plan, sheet, id| {
        verdict(exports::amended_guest_verdict(plan, sheet, id))
    },
    amended_task_verdict: |plan, sheet, id, task| {
        verdict(exports::amended_task_verdict(plan, sheet, id, task))
    },
    amended_accept: |plan, sheet| verdict(exports::amended_accept(plan, sheet)),
    amended_smallest_capacity: |plan, sheet, id| {
        verdict(exports::amended_smallest_capacity(plan, sheet, id))
    },
    statement: statement::statement,
    write_log: statement::write_log,
    salvage: salvage::salvage,
    order: order::order,
    convert: convert::convert,
    least_capacities: choice::least_capacities,
};

#[test]
fn plain_rust_agrees_with_the_reference() {
    let mut session = Session::new(PLAIN, 1);
    compare::everything(&mut session, Duration::from_secs(10));
    assert!(session.report());
}

fn guest_in(guest: &Guest) -> plain::Guest {
    plain::Guest {
        id: guest.id,
        capacity: guest.capacity,
        period: guest.period,
        tasks: guest.tasks,
        charge: guest.charge,
        marks: guest.marks,
        deferrable: guest.deferrable,
        run: guest.run,
        every: guest.every,
        deadline: guest.deadline,
    }
}

fn plan_in(plan: &Plan) -> plain::Plan {
    plain::Plan {
        count: plan.count,
        guests: plan.guests.map(|guest| guest_in(&guest)),
    }
}

fn state_in(state: &dispatching::Dispatcher) -> plain::Dispatcher {
    plain::Dispatcher {
        plan: plan_in(&state.plan),
        left: state.left,
        position: state.position,
        rest: state.rest,
        wait: state.wait,
        age: state.age,
        usage: state.usage,
    }
}

fn guest(guest: &plain::Guest) -> Guest {
    Guest {
        id: guest.id,
        capacity: guest.capacity,
        period: guest.period,
        tasks: guest.tasks,
        charge: guest.charge,
        marks: guest.marks,
        deferrable: guest.deferrable,
        run: guest.run,
        every: guest.every,
        deadline: guest.deadline,
    }
}

fn plan(plan: &plain::Plan) -> Plan {
    Plan {
        count: plan.count,
        guests: plan.guests.map(|one| guest(&one)),
    }
}

fn state(state: &plain::Dispatcher) -> dispatching::Dispatcher {
    dispatching::Dispatcher {
        plan: plan(&state.plan),
        left: state.left,
        position: state.position,
        rest: state.rest,
        wait: state.wait,
        age: state.age,
        usage: state.usage,
    }
}

fn refusal(refusal: plain::Refusal) -> Refusal {
    Refusal::new(refusal.number, refusal.place)
}

fn verdict(told: exports::Verdict) -> Verdict {
    Verdict {
        number: told.number,
        place: told.place,
        verdict: told.verdict,
        ticks: told.ticks,
    }
}

fn located(told: exports::Located) -> Located {
    Located {
        number: told.number,
        place: told.place,
        sheet: told.sheet,
    }
}

fn answer(told: exports::Answer) -> dispatching::Answer {
    dispatching::Answer {
        kind: told.kind,
        guest: told.guest,
        task: told.task,
        age: told.age,
        margin: told.margin,
    }
}

fn read(bytes: &[u8]) -> Read {
    let outcome = exports::read(bytes);
    Read {
        refusal: refusal(outcome.refusal),
        plan: plan(&outcome.plan),
    }
}

fn find(bytes: &[u8], id: u32) -> Refusal {
    match plain::block::find(bytes, id) {
        Ok(place) => Refusal::new(0, place as u32),
        Err(refused) => refusal(refused),
    }
}

fn fresh(plan: &Plan) -> dispatching::Start {
    let zero = dispatching::Dispatcher::with(Plan::default());
    match plain::Dispatcher::fresh(&plan_in(plan)) {
        Ok(fresh) => dispatching::Start {
            refusal: Refusal::NONE,
            dispatcher: state(&fresh),
        },
        Err(refused) => dispatching::Start {
            refusal: refusal(refused),
            dispatcher: zero,
        },
    }
}

fn release(from: &dispatching::Dispatcher, id: u32, task: u32) -> dispatching::Released {
    released(exports::release(state_in(from), id, task))
}

fn sheet(
    from: &dispatching::Dispatcher,
    pairs: &[u64],
    answers: &mut [u32],
) -> dispatching::Released {
    released(exports::sheet(state_in(from), pairs, answers))
}

fn released(outcome: exports::Released) -> dispatching::Released {
    dispatching::Released {
        refusal: refusal(outcome.refusal),
        dispatcher: state(&outcome.dispatcher),
    }
}

fn tick(from: &dispatching::Dispatcher) -> dispatching::Ticked {
    let outcome = exports::tick(state_in(from));
    dispatching::Ticked {
        refusal: refusal(outcome.refusal),
        answer: answer(outcome.answer),
        dispatcher: state(&outcome.dispatcher),
    }
}

fn run(from: &dispatching::Dispatcher, ticks: u32) -> dispatching::Run {
    let outcome = exports::run(state_in(from), ticks);
    dispatching::Run {
        refusal: refusal(outcome.refusal),
        done: outcome.done,
        answer: answer(outcome.answer),
        dispatcher: state(&outcome.dispatcher),
    }
}
