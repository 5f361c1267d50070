//! Plays a script of releases, watches the clock itself and counts where the ticks went.

use crate::side::Side;
use crate::tries::{Script, Tried, is_refused_whole};
use reference::dispatcher::{
    Answer, COUNTED, Dispatcher, FINISHED, IDLED, IDLED_FROM, NOBODY, NOBODYS, PLACES, parts,
    place_of,
};
use reference::plan::{MOST_TASKS, Plan};

/// A task that the subject quotes a response for, by places from 0.
#[derive(Clone, Copy)]
pub struct Quoted {
    pub guest: usize,
    pub task: usize,
    pub response: u32,
}

/// Jobs of quoted tasks, and of bound ones alone; sheets, and those of them that were refused whole.
#[derive(Default)]
pub struct Seen {
    pub jobs: Jobs,
    pub bound: Jobs,
    pub sheets: u64,
    pub refused_whole: u64,
}

/// Jobs that finished, and those of them that took all of their response.
#[derive(Default)]
pub struct Jobs {
    pub finished: u64,
    pub at_the_response: u64,
}

impl Seen {
    /// Notes a job of the quoted task at a place, and whether it took all of its response.
    fn note(&mut self, plan: &Plan, place: usize, at_the_response: bool) {
        let (guest, task) = (place / MOST_TASKS, place % MOST_TASKS);
        self.jobs.note(at_the_response);
        if plan.guests[guest].is_bound(task) {
            self.bound.note(at_the_response);
        }
    }
}

impl Jobs {
    fn note(&mut self, at_the_response: bool) {
        self.finished += 1;
        self.at_the_response += u64::from(at_the_response);
    }
}

/// Plays a script from a fresh state; or says how the promise broke.
pub fn play(side: &Side, plan: &Plan, quoted: &[Quoted], script: &Script) -> Result<Seen, String> {
    let mut play = Play {
        side,
        plan,
        state: (side.fresh)(plan).dispatcher,
        response: [None; PLACES],
        taken: [None; PLACES],
        unfinished: [false; PLACES],
        counted: [0; COUNTED],
        seen: Seen::default(),
    };
    for quote in quoted {
        play.response[place_of(quote.guest, quote.task)] = Some(quote.response);
    }
    for (time, tries) in (0..).zip(script) {
        for tried in tries {
            match tried {
                Tried::Single(pair) => play.release(time, *pair)?,
                Tried::Sheet(pairs, room) => play.sheet(time, pairs, *room)?,
            }
        }
        play.tick(time)?;
    }
    play.accounts(script.len())?;
    Ok(play.seen)
}

struct Play<'a> {
    side: &'a Side,
    plan: &'a Plan,
    state: Dispatcher,
    response: [Option<u32>; PLACES],
    /// When each task's last release was taken.
    taken: [Option<u32>; PLACES],
    unfinished: [bool; PLACES],
    /// Where the ticks went, by their answers.
    counted: [u64; COUNTED],
    seen: Seen,
}

impl Play<'_> {
    /// Tries a release that is due.
    fn release(&mut self, time: u32, pair: u64) -> Result<(), String> {
        let Some((guest, task)) = self.named(pair).filter(|named| self.due(time, *named)) else {
            return Ok(());
        };
        let id = self.plan.guests[guest].id;
        let outcome = (self.side.release)(&self.state, id, task as u32 + 1);
        self.state = outcome.dispatcher;
        self.answered(time, (guest, task), outcome.refusal.number)
    }

    /// Tries a sheet: each pair counts as a release, and none does if the sheet is refused whole.
    fn sheet(&mut self, time: u32, pairs: &[u64], room: usize) -> Result<(), String> {
        let mut answers = vec![u32::MAX; room];
        let outcome = (self.side.sheet)(&self.state, pairs, &mut answers);
        self.state = outcome.dispatcher;
        self.seen.sheets += 1;
        if outcome.refusal.number != 0 {
            self.seen.refused_whole += 1;
            return match is_refused_whole(pairs.len(), room) {
                true => Ok(()),
                false => Err(format!(
                    "tick {time}: sheet refused whole: {:?}",
                    outcome.refusal
                )),
            };
        }
        for (pair, answer) in pairs.iter().zip(answers) {
            if let Some(named) = self.named(*pair) {
                self.answered(time, named, answer)?;
            }
        }
        Ok(())
    }

    /// The places of guest and task that a pair names, if the plan has them.
    fn named(&self, pair: u64) -> Option<(usize, usize)> {
        let (guest, task) = parts(pair);
        let mut guests = self.plan.listed().iter();
        let at = guests.position(|own| u64::from(own.id) == guest)?;
        let places = self.plan.guests[at].places();
        let task = (task as usize).checked_sub(1)?;
        places.contains(&task).then_some((at, task))
    }

    /// Whether the task's period has passed since its last taken release, and if it is bound, whether its guest
    /// begins a period.
    fn due(&self, time: u32, (guest, task): (usize, usize)) -> bool {
        let own = &self.plan.guests[guest];
        let every = own.every[task];
        let starts = !own.is_bound(task) || time.is_multiple_of(own.period);
        let taken = self.taken[place_of(guest, task)];
        starts && taken.is_none_or(|taken| time - taken >= every)
    }

    /// Notes the answer to a release: 0 for taken, or the refusal's number.
    fn answered(&mut self, time: u32, named: (usize, usize), number: u32) -> Result<(), String> {
        let (guest, task) = named;
        let place = place_of(guest, task);
        let broken = |how: String| Err(format!("tick {time}: guest {guest} task {task}: {how}"));
        match (self.due(time, named), number) {
            (true, 0) => {
                self.taken[place] = Some(time);
                self.unfinished[place] = true;
                Ok(())
            }
            (true, _) if self.response[place].is_some() => {
                broken(format!("due release refused as {number}"))
            }
            (false, 0) => broken("release taken that is not due".to_string()),
            _ => Ok(()),
        }
    }

    fn tick(&mut self, time: u32) -> Result<(), String> {
        let outcome = (self.side.tick)(&self.state);
        self.state = outcome.dispatcher;
        self.count(&outcome.answer);
        let finished = self.finished(&outcome.answer);
        for place in (0..PLACES).filter(|place| self.unfinished[*place]) {
            let (Some(response), Some(taken)) = (self.response[place], self.taken[place]) else {
                continue;
            };
            let elapsed = time + 1 - taken;
            let done = finished == Some(place);
            if elapsed > response || (elapsed == response && !done) {
                let place = format!("guest {} task {}", place / 16, place % 16);
                return Err(format!("tick {time}: {place} is late, quoted {response}"));
            }
            if done {
                self.seen.note(self.plan, place, elapsed == response);
            }
        }
        if let Some(place) = finished {
            self.unfinished[place] = false;
        }
        Ok(())
    }

    /// Counts the tick for the guest that its answer names, or for nobody.
    fn count(&mut self, answer: &Answer) {
        if answer.kind == NOBODY {
            self.counted[NOBODYS] += 1;
        }
        if let Some(guest) = self.guest(answer) {
            self.counted[guest] += 1;
            self.counted[IDLED_FROM + guest] += u64::from(answer.kind == IDLED);
        }
    }

    /// Each number beside the state is the count of such ticks, and all guests' ticks and nobody's are the ticks done.
    fn accounts(&self, ticks: usize) -> Result<(), String> {
        let usage = &self.state.usage;
        let of_guests = usage[..self.plan.listed().len()].iter();
        let all = of_guests.fold(usage[NOBODYS], |sum, number| sum.wrapping_add(*number));
        match *usage == self.counted && all == ticks as u64 {
            true => Ok(()),
            false => Err(format!(
                "{ticks} ticks went {:?}, not {usage:?}",
                self.counted
            )),
        }
    }

    /// The place of the guest that the answer names.
    fn guest(&self, answer: &Answer) -> Option<usize> {
        let mut guests = self.plan.listed().iter();
        guests.position(|guest| guest.id == answer.guest)
    }

    /// The place of the task whose job the answer says is finished.
    fn finished(&self, answer: &Answer) -> Option<usize> {
        if answer.kind != FINISHED {
            return None;
        }
        Some(place_of(self.guest(answer)?, answer.task as usize - 1))
    }
}
