//! The dispatcher, as Rust has it.

use crate::{Answer, Dispatcher, Plan, Refusal, exports};

/// What had a tick: guests by their id, tasks by their number from 1.
#[derive(Clone, Copy, Debug, PartialEq, Eq)]
pub enum Tick {
    /// No guest had capacity left.
    Nobody,
    /// The guest had nothing to do and idled the tick away: it loses one of its capacity.
    Idled { guest: u32 },
    /// The task ran and has run left.
    Ran { guest: u32, task: u32 },
    /// The task's job finished; the margin is the deadline less the age, negative when late.
    Finished {
        guest: u32,
        task: u32,
        age: u32,
        margin: i32,
    },
}

/// What a run did: how many ticks, and the last of them if there was one.
#[derive(Clone, Copy, Debug, PartialEq, Eq)]
pub struct Progress {
    pub done: u32,
    pub last: Option<Tick>,
}

/// A pair of a sheet: a guest's id and a task's number from 1.
///
/// ```
/// assert_eq!(coreshare::pair(9, 2), 9 * 65_536 + 2);
/// ```
pub const fn pair(guest: u32, task: u16) -> u64 {
    (guest as u64) << 16 | task as u64
}

impl Answer {
    /// The answer as an enum, or none.
    pub fn tick(self) -> Option<Tick> {
        let Answer {
            kind,
            guest,
            task,
            age,
            margin,
        } = self;
        match kind {
            1 => Some(Tick::Nobody),
            2 => Some(Tick::Idled { guest }),
            3 => Some(Tick::Ran { guest, task }),
            4 => Some(Tick::Finished {
                guest,
                task,
                age,
                margin,
            }),
            _ => None,
        }
    }
}

/// A refusal that has no place.
fn numbered(number: u32) -> Refusal {
    Refusal { number, place: 0 }
}

impl Dispatcher {
    /// A fresh state: no job, all positions 0, and no tick counted. The plan need not be an accepted one, but its
    /// guests must be Periodic ones: else it is refused by 23.
    ///
    /// ```
    /// use coreshare::{Dispatcher, Guest, Plan};
    ///
    /// let plan = Plan::new(&[Guest::new(7, 2, 5, &[[1, 20, 20]])]);
    /// assert_eq!(Dispatcher::fresh(&plan)?.plan, plan);
    /// assert_eq!(Dispatcher::fresh(&Plan::default()).unwrap_err().number, 1);
    /// let deferrable = Plan::new(&[Guest { deferrable: 1, ..plan.guests[0] }]);
    /// assert_eq!(Dispatcher::fresh(&deferrable).unwrap_err().number, 23);
    /// # Ok::<(), coreshare::Refusal>(())
    /// ```
    pub fn fresh(plan: &Plan) -> Result<Dispatcher, Refusal> {
        let outcome = exports::fresh(plan);
        outcome.refusal.or(outcome.dispatcher)
    }

    /// Releases a job of a task; a refused release changes nothing.
    ///
    /// ```
    /// use coreshare::{Dispatcher, Guest, Plan, mark};
    ///
    /// let guest = Guest { marks: mark(2), ..Guest::new(7, 2, 5, &[[1, 20, 20], [1, 20, 20]]) };
    /// let mut dispatcher = Dispatcher::fresh(&Plan::new(&[guest]))?;
    /// dispatcher.release(7, 1)?;
    /// assert_eq!(dispatcher.release(7, 1).unwrap_err().number, 9);
    /// assert_eq!(dispatcher.release(7, 3).unwrap_err().number, 8);
    /// dispatcher.tick()?;
    /// assert_eq!(dispatcher.release(7, 2).unwrap_err().number, 17);
    /// # Ok::<(), coreshare::Refusal>(())
    /// ```
    pub fn release(&mut self, id: u32, task: u32) -> Result<(), Refusal> {
        numbered(exports::release_in(self, id, task)).or(())
    }

    /// Releases a job of each [`pair`] in order, at most 256, as if by [`Dispatcher::release`] one by one, and
    /// writes an answer for each: 0 for taken, or the refusal's number. Answer places past the pairs stay as they
    /// were. A sheet refused whole changes nothing and writes no answer.
    ///
    /// ```
    /// use coreshare::{Dispatcher, Guest, Plan, pair};
    ///
    /// let plan = Plan::new(&[
    ///     Guest::new(7, 2, 5, &[[1, 20, 20]]),
    ///     Guest::new(9, 8, 20, &[[10, 50, 50], [8, 100, 100]]),
    /// ]);
    /// let mut dispatcher = Dispatcher::fresh(&plan)?;
    /// let mut answers = [99; 6];
    /// let pairs = [pair(9, 1), pair(7, 1), pair(9, 1), pair(9, 3), pair(8, 1)];
    /// dispatcher.sheet(&pairs, &mut answers)?;
    /// assert_eq!(answers, [0, 0, 9, 8, 7, 99]);
    /// assert_eq!(dispatcher.sheet(&pairs, &mut answers[..4]).unwrap_err().number, 12);
    /// assert_eq!(dispatcher.sheet(&[0; 257], &mut answers).unwrap_err().number, 15);
    /// # Ok::<(), coreshare::Refusal>(())
    /// ```
    pub fn sheet(&mut self, pairs: &[u64], answers: &mut [u32]) -> Result<(), Refusal> {
        numbered(exports::sheet_in(self, pairs, answers)).or(())
    }

    /// Goes on by one tick. A state outside its ranges is refused by 14, here as in every call, and so is one with a
    /// Deferrable guest.
    ///
    /// ```
    /// use coreshare::{Dispatcher, Guest, Plan, Tick};
    ///
    /// let plan = Plan::new(&[Guest::new(7, 1, 2, &[[1, 20, 20]])]);
    /// let mut dispatcher = Dispatcher::fresh(&plan)?;
    /// assert_eq!(dispatcher.tick()?, Tick::Idled { guest: 7 });
    /// assert_eq!(dispatcher.tick()?, Tick::Nobody);
    /// dispatcher.release(7, 1)?;
    /// let finished = Tick::Finished { guest: 7, task: 1, age: 1, margin: 19 };
    /// assert_eq!(dispatcher.tick()?, finished);
    /// dispatcher.plan.guests[0].deferrable = 1;
    /// assert_eq!(dispatcher.tick().unwrap_err().number, 14);
    /// # Ok::<(), coreshare::Refusal>(())
    /// ```
    pub fn tick(&mut self) -> Result<Tick, Refusal> {
        let outcome = exports::tick_in(self);
        let tick = numbered(outcome.number).or(outcome.answer.tick())?;
        Ok(tick.unwrap_or(Tick::Nobody))
    }

    /// Goes on until a job finishes, or by this many ticks, at most 1,000,000.
    ///
    /// ```
    /// use coreshare::{Dispatcher, Guest, Plan, Tick};
    ///
    /// let plan = Plan::new(&[
    ///     Guest::new(7, 2, 5, &[[1, 20, 20]]),
    ///     Guest::new(9, 8, 20, &[[10, 50, 50], [8, 100, 100]]),
    /// ]);
    /// let mut dispatcher = Dispatcher::fresh(&plan)?;
    /// dispatcher.release(9, 1)?;
    /// let progress = dispatcher.run(1_000)?;
    /// assert_eq!(progress.done, 24);
    /// let finished = Tick::Finished { guest: 9, task: 1, age: 24, margin: 26 };
    /// assert_eq!(progress.last, Some(finished));
    /// # Ok::<(), coreshare::Refusal>(())
    /// ```
    pub fn run(&mut self, ticks: u32) -> Result<Progress, Refusal> {
        let outcome = exports::run_in(self, ticks);
        numbered(outcome.number).or(Progress {
            done: outcome.done,
            last: outcome.answer.tick(),
        })
    }

    /// How many ticks the guest had, modulo 2 to the 64; none where the plan has no such guest.
    ///
    /// ```
    /// use coreshare::{Dispatcher, Guest, Plan};
    ///
    /// let plan = Plan::new(&[
    ///     Guest::new(7, 2, 5, &[[1, 20, 20]]),
    ///     Guest::new(9, 8, 20, &[[10, 50, 50], [8, 100, 100]]),
    /// ]);
    /// let mut dispatcher = Dispatcher::fresh(&plan)?;
    /// dispatcher.release(9, 1)?;
    /// let progress = dispatcher.run(1_000)?;
    /// assert_eq!([dispatcher.ticks(7), dispatcher.idled(7)], [Some(10), Some(10)]);
    /// assert_eq!([dispatcher.ticks(9), dispatcher.idled(9)], [Some(10), Some(0)]);
    /// assert_eq!(dispatcher.nobodys(), 4);
    /// assert_eq!(dispatcher.ticks(8), None);
    /// assert_eq!(progress.done, 24);
    /// # Ok::<(), coreshare::Refusal>(())
    /// ```
    pub fn ticks(&self, id: u32) -> Option<u64> {
        self.place(id).map(|place| self.usage[place])
    }

    /// How many of its ticks the guest idled away, modulo 2 to the 64; none where the plan has no
    /// such guest.
    pub fn idled(&self, id: u32) -> Option<u64> {
        self.place(id).map(|place| self.usage[8 + place])
    }

    /// How many ticks no guest had, modulo 2 to the 64.
    pub fn nobodys(&self) -> u64 {
        self.usage[16]
    }

    /// The guest's place in the plan, whatever the plan's count is.
    fn place(&self, id: u32) -> Option<usize> {
        let mut listed = self.plan.guests.iter().take(self.plan.count as usize);
        listed.position(|guest| guest.id == id)
    }
}
