//! The dispatcher, changed in place.

use crate::records::LONGEST;
use crate::{Guest, Plan, Refusal};

/// Task `t` of guest `g` at `16 * g + t`; the ticks of guest `g` at `g`, those that it idled away at `8 + g`,
/// nobody's at 16.
#[repr(C)]
#[derive(Clone, Copy, Debug, PartialEq, Eq)]
pub struct Dispatcher {
    pub plan: Plan,
    pub usage: [u64; 17],
    pub left: [u32; 8],
    pub position: [u32; 8],
    pub rest: [u32; 128],
    pub wait: [u32; 128],
    pub age: [u32; 128],
}

/// What had a tick: guests by their id, tasks by their number from 1.
#[derive(Clone, Copy, Debug, PartialEq, Eq)]
pub enum Tick {
    Nobody,
    Idled(u32),
    Ran(u32, u32),
    Finished {
        guest: u32,
        task: u32,
        age: u32,
        margin: i32,
    },
}

impl Dispatcher {
    pub fn fresh(plan: &Plan) -> Result<Dispatcher, Refusal> {
        plan.check()?;
        if plan.has_deferrable() {
            return Err(Refusal::new(23, 0));
        }
        Ok(Dispatcher {
            plan: *plan,
            left: [0; 8],
            position: [0; 8],
            rest: [0; 128],
            wait: [0; 128],
            age: [0; 128],
            usage: [0; 17],
        })
    }

    pub fn release(&mut self, id: u32, task: u32) -> Result<(), Refusal> {
        self.check()?;
        self.take(id, task)
    }

    /// Releases the pairs one by one, the state being checked once.
    pub fn sheet(&mut self, pairs: &[u64], answers: &mut [u32]) -> Result<(), Refusal> {
        self.check()?;
        if pairs.len() > 256 {
            return Err(Refusal::new(15, 0));
        }
        if answers.len() < pairs.len() {
            return Err(Refusal::new(12, 0));
        }
        for (pair, answer) in pairs.iter().zip(answers) {
            let taken = match u32::try_from(pair >> 16) {
                Ok(id) => self.take(id, (pair & 0xFFFF) as u32),
                Err(_) => Err(Refusal::new(7, 0)),
            };
            *answer = taken.err().unwrap_or_default().number;
        }
        Ok(())
    }

    /// A release into a state that is known to be in range.
    fn take(&mut self, id: u32, task: u32) -> Result<(), Refusal> {
        let guest = self.plan.place_of(id)?;
        let own = &self.plan.guests[guest];
        let task = own.task_place(task)?;
        let place = 16 * guest + task;
        if own.is_bound(task) && self.position[guest] > 0 {
            return Err(Refusal::new(17, 0));
        }
        if self.wait[place] > 0 {
            return Err(Refusal::new(9, 0));
        }
        if self.rest[place] > 0 {
            return Err(Refusal::new(10, 0));
        }
        self.rest[place] = own.charged_run(task);
        self.wait[place] = own.every[task];
        self.age[place] = 0;
        Ok(())
    }

    pub fn tick(&mut self) -> Result<Tick, Refusal> {
        self.check()?;
        Ok(self.step())
    }

    /// The ticks done, and the last of them.
    pub fn run(&mut self, ticks: u32) -> Result<(u32, Option<Tick>), Refusal> {
        self.check()?;
        if ticks > 1_000_000 {
            return Err(Refusal::new(13, 0));
        }
        Ok(self.unchecked(ticks))
    }

    /// The same of a state and a number of ticks that are known to be in range.
    pub fn unchecked(&mut self, ticks: u32) -> (u32, Option<Tick>) {
        let mut last = None;
        for done in 0..ticks {
            let tick = self.step();
            if let Tick::Finished { .. } = tick {
                return (done + 1, Some(tick));
            }
            last = Some(tick);
        }
        (ticks, last)
    }

    fn check(&self) -> Result<(), Refusal> {
        match self.plan.check().is_ok() && self.guests_in_range() && self.zero_past_the_guests() {
            true => Ok(()),
            false => Err(Refusal::new(14, 0)),
        }
    }

    fn guests_in_range(&self) -> bool {
        self.plan.listed().iter().enumerate().all(|(at, guest)| {
            !guest.is_deferrable()
                && self.left[at] <= guest.capacity
                && self.position[at] < guest.period
                && self.tasks_in_range(guest, 16 * at)
        })
    }

    fn tasks_in_range(&self, guest: &Guest, first: usize) -> bool {
        let tasks = guest.tasks as usize;
        let in_range = (0..tasks).all(|task| {
            self.rest[first + task] <= guest.charged_run(task)
                && self.wait[first + task] <= guest.every[task]
                && self.age[first + task] <= LONGEST
        });
        in_range && self.zero(first + tasks, first + 16)
    }

    fn zero_past_the_guests(&self) -> bool {
        let count = self.plan.count as usize;
        let guests = self.left[count..].iter().chain(&self.position[count..]);
        guests.fold(0, |all, number| all | number) == 0 && self.zero(16 * count, 128)
    }

    fn zero(&self, from: usize, to: usize) -> bool {
        let columns = [
            &self.rest[from..to],
            &self.wait[from..to],
            &self.age[from..to],
        ];
        columns
            .iter()
            .all(|column| column.iter().fold(0, |all, number| all | number) == 0)
    }

    fn step(&mut self) -> Tick {
        let count = self.plan.count as usize;
        let guests = &self.plan.guests[..count];
        let used = 16 * count;
        for ((guest, left), position) in guests.iter().zip(&mut self.left).zip(&self.position) {
            if *position == 0 {
                *left = guest.capacity;
            }
        }
        for (age, rest) in self.age[..used].iter_mut().zip(&self.rest[..used]) {
            *age += u32::from((*rest != 0) & (*age != LONGEST));
        }
        for wait in &mut self.wait[..used] {
            *wait -= u32::from(*wait != 0);
        }
        for (guest, position) in guests.iter().zip(&mut self.position) {
            *position += 1;
            if *position == guest.period {
                *position = 0;
            }
        }
        self.serve(count)
    }

    /// One more tick at a place of `usage`.
    fn count(&mut self, at: usize) {
        self.usage[at] = self.usage[at].wrapping_add(1);
    }

    /// Hands the tick to the first guest with capacity left, and in it to the first task with run left.
    fn serve(&mut self, count: usize) -> Tick {
        let Some(at) = self.left[..count].iter().position(|left| *left > 0) else {
            self.count(16);
            return Tick::Nobody;
        };
        self.left[at] -= 1;
        self.count(at);
        let guest = &self.plan.guests[at];
        let first = 16 * at;
        let rest = &mut self.rest[first..first + 16];
        let Some(task) = rest.iter().position(|rest| *rest > 0) else {
            let id = guest.id;
            self.count(8 + at);
            return Tick::Idled(id);
        };
        rest[task] -= 1;
        let number = task as u32 + 1;
        if rest[task] > 0 {
            return Tick::Ran(guest.id, number);
        }
        let age = self.age[first + task];
        Tick::Finished {
            guest: guest.id,
            task: number,
            age,
            margin: guest.deadline[task] as i32 - age as i32,
        }
    }
}
