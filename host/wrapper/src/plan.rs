//! Plan blocks, verdicts and the smallest capacity, as Rust has them.

use crate::{Guest, Plan, Refusal, Verdict, exports};

/// The bytes of one guest's block.
pub const BLOCK: usize = 512;

/// What is said of a guest.
#[derive(Clone, Copy, Debug, PartialEq, Eq)]
pub enum GuestVerdict {
    /// Fitted, with its response in ticks.
    Fitted(u32),
    Unfit,
}

/// What is said of a task.
#[derive(Clone, Copy, Debug, PartialEq, Eq)]
pub enum TaskVerdict {
    /// Met, with its response in ticks.
    Met(u32),
    /// Unmet, with its response in ticks: past the deadline, and at most its period.
    UnmetAt(u32),
    /// Unmet, and no response is at most its period.
    Unmet,
    /// Its own guest or a guest above is unfit.
    Unjudged,
}

/// The guest's block as it stands in the lent plan.
///
/// ```
/// use coreshare::{BLOCK, Guest, find};
///
/// let mut bytes = [0; 2 * BLOCK];
/// Guest::new(7, 2, 5, &[[1, 20, 20]]).write(0, &mut bytes)?;
/// Guest::new(9, 8, 20, &[[10, 50, 50]]).write(1, &mut bytes[BLOCK..])?;
/// assert_eq!(find(&bytes, 9)?, &bytes[BLOCK..]);
/// assert_eq!(find(&bytes, 8).unwrap_err().number, 7);
/// # Ok::<(), coreshare::Refusal>(())
/// ```
pub fn find(bytes: &[u8], id: u32) -> Result<&[u8], Refusal> {
    let found = exports::find(bytes, id);
    let start = BLOCK * found.or(found.place as usize)?;
    Ok(&bytes[start..start + BLOCK])
}

/// The mark of a task, by its number from 1 to 16; any other number has none.
///
/// ```
/// use coreshare::{Guest, Plan, TaskVerdict, mark};
///
/// let tasks = [[10, 60, 60], [8, 100, 100]];
/// let guest = Guest { marks: mark(1), ..Guest::new(9, 8, 20, &tasks) };
/// let plan = Plan::new(&[Guest::new(7, 2, 5, &[[1, 20, 20]]), guest]);
/// assert_eq!(plan.task_verdict(9, 1), Ok(TaskVerdict::Met(24)));
/// assert_eq!(plan.task_verdict(9, 2), Ok(TaskVerdict::Met(56)));
/// assert_eq!([mark(0), mark(16), mark(17)], [0, 0x8000, 0]);
/// ```
pub const fn mark(task: u32) -> u16 {
    match task {
        1..=16 => 1 << (task - 1),
        _ => 0,
    }
}

impl Guest {
    /// A record from its tasks' run, period and deadline: Periodic, with charge 0 and no task bound.
    ///
    /// # Panics
    /// If there are more than 16 tasks.
    pub fn new(id: u32, capacity: u32, period: u32, tasks: &[[u32; 3]]) -> Guest {
        let mut guest = Guest {
            id,
            capacity,
            period,
            tasks: tasks.len() as u32,
            ..Guest::default()
        };
        for (at, [run, every, deadline]) in tasks.iter().enumerate() {
            guest.run[at] = *run;
            guest.every[at] = *every;
            guest.deadline[at] = *deadline;
        }
        guest
    }

    /// Writes the guest's block to the first 512 bytes of the buffer, and to no others. A Deferrable guest is refused
    /// by 23.
    ///
    /// ```
    /// use coreshare::Guest;
    ///
    /// let guest = Guest::new(7, 2, 5, &[[1, 20, 20]]);
    /// let mut buffer = [0xFF; 600];
    /// guest.write(0, &mut buffer)?;
    /// assert_eq!(buffer[..8], [1, 0, 0, 0, 7, 0, 0, 0]);
    /// assert_eq!(buffer[512..], [0xFF; 88]);
    /// assert_eq!(guest.write(8, &mut buffer).unwrap_err().number, 3);
    /// # Ok::<(), coreshare::Refusal>(())
    /// ```
    pub fn write(&self, place: u32, buffer: &mut [u8]) -> Result<(), Refusal> {
        exports::write(self, place, buffer).or(())
    }
}

impl Plan {
    /// A plan of these guests.
    ///
    /// # Panics
    /// If there are more than 8 guests.
    pub fn new(guests: &[Guest]) -> Plan {
        let mut plan = Plan {
            count: guests.len() as u32,
            ..Plan::default()
        };
        plan.guests[..guests.len()].copy_from_slice(guests);
        plan
    }

    /// Reads a plan from its blocks.
    ///
    /// ```
    /// use coreshare::{BLOCK, Guest, Plan};
    ///
    /// let guest = Guest::new(7, 2, 5, &[[1, 20, 20]]);
    /// let mut block = [0; BLOCK];
    /// guest.write(0, &mut block)?;
    /// assert_eq!(Plan::read(&block)?, Plan::new(&[guest]));
    /// assert_eq!(Plan::read(&[0; BLOCK]).unwrap_err().number, 3);
    /// # Ok::<(), coreshare::Refusal>(())
    /// ```
    pub fn read(bytes: &[u8]) -> Result<Plan, Refusal> {
        let outcome = exports::read(bytes);
        outcome.refusal.or(outcome.plan)
    }

    /// Checks the records.
    ///
    /// ```
    /// use coreshare::{Guest, Plan, Refusal};
    ///
    /// let guest = Guest::new(7, 2, 5, &[[1, 20, 20]]);
    /// assert_eq!(Plan::new(&[guest]).check(), Ok(()));
    /// let twice = Plan::new(&[guest, guest]);
    /// assert_eq!(twice.check(), Err(Refusal { number: 4, place: 1 }));
    /// ```
    pub fn check(&self) -> Result<(), Refusal> {
        exports::check(self).or(())
    }

    /// The verdict of the guest with this id.
    ///
    /// ```
    /// use coreshare::{Guest, GuestVerdict, Plan};
    ///
    /// let above = Guest::new(1, 2, 5, &[[1, 20, 20]]);
    /// let fits = Plan::new(&[above, Guest::new(2, 3, 6, &[[1, 20, 20]])]);
    /// assert_eq!(fits.guest_verdict(2), Ok(GuestVerdict::Fitted(5)));
    /// let does_not = Plan::new(&[above, Guest::new(2, 4, 6, &[[1, 20, 20]])]);
    /// assert_eq!(does_not.guest_verdict(2), Ok(GuestVerdict::Unfit));
    /// ```
    pub fn guest_verdict(&self, id: u32) -> Result<GuestVerdict, Refusal> {
        exports::guest_verdict_in(self, id).of_guest()
    }

    /// The verdict of a task of the guest with this id; tasks are numbered from 1.
    ///
    /// ```
    /// use coreshare::{Guest, Plan, TaskVerdict};
    ///
    /// let plan = Plan::new(&[
    ///     Guest::new(7, 2, 5, &[[1, 20, 20]]),
    ///     Guest::new(9, 8, 20, &[[10, 50, 50], [8, 100, 79]]),
    /// ]);
    /// assert_eq!(plan.task_verdict(9, 1), Ok(TaskVerdict::Met(36)));
    /// assert_eq!(plan.task_verdict(9, 2), Ok(TaskVerdict::UnmetAt(80)));
    /// assert_eq!(plan.task_verdict(9, 3).unwrap_err().number, 8);
    /// ```
    pub fn task_verdict(&self, id: u32, task: u32) -> Result<TaskVerdict, Refusal> {
        exports::task_verdict_in(self, id, task).of_task()
    }

    /// Whether all guests are fitted and all tasks met.
    ///
    /// ```
    /// use coreshare::{Guest, Plan};
    ///
    /// assert_eq!(Plan::new(&[Guest::new(7, 2, 5, &[[1, 20, 4]])]).accepted(), Ok(true));
    /// assert_eq!(Plan::new(&[Guest::new(7, 2, 5, &[[1, 20, 3]])]).accepted(), Ok(false));
    /// ```
    pub fn accepted(&self) -> Result<bool, Refusal> {
        exports::accept_in(self).of_plan()
    }

    /// The smallest capacity at which the guest with this id is fitted and all its tasks are met.
    ///
    /// ```
    /// use coreshare::{Guest, Plan};
    ///
    /// let above = Guest::new(7, 2, 5, &[[1, 20, 20]]);
    /// let plan = Plan::new(&[above, Guest::new(9, 8, 20, &[[10, 50, 50], [8, 100, 100]])]);
    /// assert_eq!(plan.smallest_capacity(9), Ok(7));
    /// let none = Plan::new(&[above, Guest::new(9, 1, 6, &[[4, 6, 6]])]);
    /// assert_eq!(none.smallest_capacity(9).unwrap_err().number, 11);
    /// ```
    pub fn smallest_capacity(&self, id: u32) -> Result<u32, Refusal> {
        exports::smallest_capacity_in(self, id).of_capacity()
    }
}

impl Verdict {
    /// What is said of a guest, unless it is a refusal.
    pub(crate) fn of_guest(self) -> Result<GuestVerdict, Refusal> {
        let verdict = self.taken()?;
        Ok(match verdict.verdict {
            1 => GuestVerdict::Fitted(verdict.ticks),
            _ => GuestVerdict::Unfit,
        })
    }

    /// What is said of a task, unless it is a refusal.
    pub(crate) fn of_task(self) -> Result<TaskVerdict, Refusal> {
        let verdict = self.taken()?;
        Ok(match (verdict.verdict, verdict.ticks) {
            (1, response) => TaskVerdict::Met(response),
            (2, 0) => TaskVerdict::Unmet,
            (2, response) => TaskVerdict::UnmetAt(response),
            _ => TaskVerdict::Unjudged,
        })
    }

    /// Whether the plan is accepted, unless it is a refusal.
    pub(crate) fn of_plan(self) -> Result<bool, Refusal> {
        Ok(self.taken()?.verdict == 1)
    }

    /// The smallest capacity, unless it is a refusal.
    pub(crate) fn of_capacity(self) -> Result<u32, Refusal> {
        Ok(self.taken()?.ticks)
    }

    /// The verdict, unless it is a refusal.
    fn taken(self) -> Result<Verdict, Refusal> {
        let Verdict { number, place, .. } = self;
        Refusal { number, place }.or(self)
    }
}
