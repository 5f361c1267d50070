//! A plan as records, and the records' order.

/// The longest period and the longest run, in ticks.
pub const LONGEST: u32 = 1_000_000;

#[repr(C)]
#[derive(Clone, Copy, Debug, Default, PartialEq, Eq)]
pub struct Guest {
    pub id: u32,
    pub capacity: u32,
    pub period: u32,
    pub tasks: u32,
    pub charge: u16,
    pub marks: u16,
    pub deferrable: u32,
    pub run: [u32; 16],
    pub every: [u32; 16],
    pub deadline: [u32; 16],
}

#[repr(C)]
#[derive(Clone, Copy, Debug, Default, PartialEq, Eq)]
pub struct Plan {
    pub count: u32,
    pub guests: [Guest; 8],
}

/// A refusal's number and place.
#[repr(C)]
#[derive(Clone, Copy, Debug, Default, PartialEq, Eq)]
pub struct Refusal {
    pub number: u32,
    pub place: u32,
}

impl Refusal {
    pub fn new(number: u32, place: u32) -> Refusal {
        Refusal { number, place }
    }
}

impl Guest {
    /// A record from its tasks' run, period and deadline: Periodic, with charge 0 and no task bound.
    pub fn new(id: u32, capacity: u32, period: u32, tasks: &[[u32; 3]]) -> Guest {
        let mut guest = Guest {
            id,
            capacity,
            period,
            tasks: tasks.len() as u32,
            ..Guest::default()
        };
        for (at, [run, every, deadline]) in tasks.iter().enumerate() {
            guest.run[at] = *run;
            guest.every[at] = *every;
            guest.deadline[at] = *deadline;
        }
        guest
    }

    pub fn charged_run(&self, task: usize) -> u32 {
        self.run[task] + 2 * u32::from(self.charge)
    }

    pub fn is_bound(&self, task: usize) -> bool {
        self.marks >> task & 1 == 1
    }

    pub fn is_deferrable(&self) -> bool {
        self.deferrable != 0
    }

    /// What the guest can be late by, for those below it.
    pub fn jitter(&self) -> u32 {
        match self.is_deferrable() {
            true => self.period - self.capacity,
            false => 0,
        }
    }

    /// The marks of the tasks of a guest whose head is in range.
    pub fn live_marks(&self) -> u16 {
        self.marks & (u16::MAX >> (16 - self.tasks))
    }

    pub fn head_in_range(&self) -> bool {
        self.id != 0
            && (1..=LONGEST).contains(&self.period)
            && (1..=self.period).contains(&self.capacity)
            && (1..=16).contains(&self.tasks)
    }

    /// Of a guest whose head is in range.
    pub fn tasks_in_range(&self) -> bool {
        let tasks = self.tasks as usize;
        let in_range = self.run[..tasks]
            .iter()
            .zip(&self.every[..tasks])
            .zip(&self.deadline[..tasks])
            .all(|((run, every), deadline)| {
                (1..=LONGEST).contains(run)
                    && (1..=LONGEST).contains(every)
                    && (1..=*every).contains(deadline)
            });
        in_range && (self.marks == 0 || self.bound_tasks_start_with_it(tasks))
    }

    /// Whether the period of each bound task is a multiple of the guest's.
    fn bound_tasks_start_with_it(&self, tasks: usize) -> bool {
        let every = self.every[..tasks].iter().enumerate();
        every
            .filter(|(task, _)| self.is_bound(*task))
            .all(|(_, every)| every.is_multiple_of(self.period))
    }

    /// The place in the record of a task named by its number from 1.
    pub fn task_place(&self, task: u32) -> Result<usize, Refusal> {
        match (1..=self.tasks).contains(&task) {
            true => Ok(task as usize - 1),
            false => Err(Refusal::new(8, 0)),
        }
    }
}

impl Plan {
    /// The guests of a plan that is checked.
    pub fn listed(&self) -> &[Guest] {
        &self.guests[..self.count as usize]
    }

    pub fn check(&self) -> Result<(), Refusal> {
        if !(1..=8).contains(&self.count) {
            return Err(Refusal::new(1, 0));
        }
        for (place, guest) in self.listed().iter().enumerate() {
            let seen = self.guests[..place].iter().any(|one| one.id == guest.id);
            if seen || !guest.head_in_range() {
                return Err(Refusal::new(4, place as u32));
            }
            if !guest.tasks_in_range() {
                return Err(Refusal::new(6, place as u32));
            }
        }
        Ok(())
    }

    /// Whether a guest of a plan that is checked is Deferrable.
    pub fn has_deferrable(&self) -> bool {
        self.listed().iter().any(Guest::is_deferrable)
    }

    pub fn place_of(&self, id: u32) -> Result<usize, Refusal> {
        self.listed()
            .iter()
            .position(|guest| guest.id == id)
            .ok_or(Refusal::new(7, 0))
    }
}
