//! What one guest sees of a history.

use crate::side::Side;
use crate::tries::{Script, Tried};
use reference::dispatcher::{Answer, Dispatcher, FINISHED, IDLED, RAN, parts};
use reference::plan::Plan;

/// One thing that the guest sees: the answer to a release of its own, 0 for taken, or where a tick went.
#[derive(Clone, Copy, Debug, PartialEq, Eq)]
pub enum Event {
    Answered(u32),
    Elsewhere,
    Idled,
    Worked { task: u32 },
    Finished { task: u32, age: u32, margin: i32 },
}

/// For each tick the answers since the last one, and the tick.
pub type View = Vec<Vec<Event>>;

/// Plays a script from a fresh state; gives what the guest with this id sees.
pub fn view(side: &Side, plan: &Plan, id: u32, script: &Script) -> View {
    let mut state = (side.fresh)(plan).dispatcher;
    let mut view = Vec::new();
    for tries in script {
        let mut events = Vec::new();
        for tried in tries {
            events.extend(answers(side, &mut state, id, tried));
        }
        let outcome = (side.tick)(&state);
        state = outcome.dispatcher;
        events.push(tick(&outcome.answer, id));
        view.push(events);
    }
    view
}

/// Tries releases; gives the answers to the guest's own, of which a sheet that is refused whole has none.
fn answers(side: &Side, state: &mut Dispatcher, id: u32, tried: &Tried) -> Vec<Event> {
    let (pairs, answers) = match tried {
        Tried::Single(pair) => (vec![*pair], single(side, state, *pair)),
        Tried::Sheet(pairs, room) => (pairs.clone(), sheet(side, state, pairs, *room)),
    };
    let answered = pairs.iter().zip(answers);
    answered
        .filter(|(pair, _)| is_own(**pair, id))
        .map(|(_, answer)| Event::Answered(answer))
        .collect()
}

/// Releases one pair, whose guest part is an id.
fn single(side: &Side, state: &mut Dispatcher, pair: u64) -> Vec<u32> {
    let (guest, task) = parts(pair);
    let outcome = (side.release)(state, guest as u32, task);
    *state = outcome.dispatcher;
    vec![outcome.refusal.number]
}

fn sheet(side: &Side, state: &mut Dispatcher, pairs: &[u64], room: usize) -> Vec<u32> {
    let mut answers = vec![u32::MAX; room];
    let outcome = (side.sheet)(state, pairs, &mut answers);
    *state = outcome.dispatcher;
    match outcome.refusal.number {
        0 => answers,
        _ => Vec::new(),
    }
}

/// Whether a pair names the guest with this id.
pub fn is_own(pair: u64, id: u32) -> bool {
    parts(pair).0 == u64::from(id)
}

/// The tick as the guest with this id sees it.
fn tick(answer: &Answer, id: u32) -> Event {
    let task = answer.task;
    match answer.kind {
        _ if answer.guest != id => Event::Elsewhere,
        IDLED => Event::Idled,
        RAN => Event::Worked { task },
        FINISHED => Event::Finished {
            task,
            age: answer.age,
            margin: answer.margin,
        },
        _ => Event::Elsewhere,
    }
}
