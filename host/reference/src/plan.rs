//! A plan as records, the refusals, and the records' order.

mod block;

#[cfg(test)]
mod tests;

pub use block::{BLOCK, LONGEST_PLAN, Read, block_of, blocks_of, find, found, read, seal, write};
pub(crate) use block::{
    DEFERRABLE, KIND, MARKS, PERIODIC, PLACE, PLAIN, SERVER, carried_place, length_in_range,
    put_short, put_word, read_block, short, sum_of_words, word,
};

/// The most guests in a plan.
pub const MOST_GUESTS: usize = 8;

/// The most tasks in a guest.
pub const MOST_TASKS: usize = 16;

/// The longest period and the longest run, in ticks.
pub const LONGEST: u32 = 1_000_000;

/// One guest's record. The task's period column is called `every`; the marks have bit 0 for task 1 and so on; the guest
/// is Periodic where `deferrable` is 0, and Deferrable where it is any other number.
#[derive(Clone, Copy, Debug, Default, PartialEq, Eq)]
pub struct Guest {
    pub id: u32,
    pub capacity: u32,
    pub period: u32,
    pub tasks: u32,
    pub charge: u16,
    pub marks: u16,
    pub deferrable: u32,
    pub run: [u32; MOST_TASKS],
    pub every: [u32; MOST_TASKS],
    pub deadline: [u32; MOST_TASKS],
}

/// A plan as records: its guests in priority order, first is highest.
#[derive(Clone, Copy, Debug, Default, PartialEq, Eq)]
pub struct Plan {
    pub count: u32,
    pub guests: [Guest; MOST_GUESTS],
}

/// A refusal's number and place; number 0 is no refusal.
#[derive(Clone, Copy, Debug, Default, PartialEq, Eq)]
pub struct Refusal {
    pub number: u32,
    pub place: u32,
}

impl Refusal {
    /// Nothing is refused.
    pub const NONE: Refusal = Refusal::new(0, 0);

    pub const fn new(number: u32, place: u32) -> Refusal {
        Refusal { number, place }
    }

    /// The refusal of a result, or none.
    pub fn of<T>(result: &Result<T, Refusal>) -> Refusal {
        match result {
            Ok(_) => Refusal::NONE,
            Err(refusal) => *refusal,
        }
    }
}

impl Guest {
    /// A record from its tasks' run, period and deadline: Periodic, with charge 0 and no task bound.
    pub fn new(id: u32, capacity: u32, period: u32, tasks: &[[u32; 3]]) -> Guest {
        let mut guest = Guest {
            id,
            capacity,
            period,
            tasks: tasks.len() as u32,
            ..Guest::default()
        };
        for (at, [run, every, deadline]) in tasks.iter().enumerate() {
            guest.run[at] = *run;
            guest.every[at] = *every;
            guest.deadline[at] = *deadline;
        }
        guest
    }

    /// Whether the guest is Deferrable: any number but 0 says so.
    pub fn is_deferrable(&self) -> bool {
        self.deferrable != 0
    }

    /// Whether the task at this place is bound: bit 0 of the marks for task 1 and so on.
    pub fn is_bound(&self, task: usize) -> bool {
        self.marks >> task & 1 == 1
    }

    /// The marks of the tasks that the guest has: those past the tasks are not looked at in a record.
    pub fn marks_of_tasks(&self) -> u16 {
        let bound = self.places().filter(|task| self.is_bound(*task));
        bound.map(|task| 1 << task).sum()
    }

    /// The charge is added twice to every task's run, the lowest's too: the switch in and the switch out.
    pub fn charged_run(&self, task: usize) -> u32 {
        self.run[task] + 2 * u32::from(self.charge)
    }

    /// The tasks' places in the record, from 0.
    pub fn places(&self) -> std::ops::Range<usize> {
        0..self.tasks as usize
    }
}

impl Plan {
    /// A plan of these guests.
    pub fn new(guests: &[Guest]) -> Plan {
        let mut plan = Plan {
            count: guests.len() as u32,
            ..Plan::default()
        };
        plan.guests[..guests.len()].copy_from_slice(guests);
        plan
    }

    /// The guests that count.
    pub fn listed(&self) -> &[Guest] {
        &self.guests[..self.count as usize]
    }

    /// Whether any of the guests that count is Deferrable.
    pub fn has_deferrable(&self) -> bool {
        self.listed().iter().any(Guest::is_deferrable)
    }

    /// The place of the guest with this id; else refusal 7.
    pub fn place_of(&self, id: u32) -> Result<usize, Refusal> {
        self.listed()
            .iter()
            .position(|guest| guest.id == id)
            .ok_or(Refusal::new(7, 0))
    }
}

/// The place in the record of the task that callers name by its number from 1; else refusal 8.
pub fn task_place(guest: &Guest, task: u32) -> Result<usize, Refusal> {
    if (1..=guest.tasks).contains(&task) {
        Ok(task as usize - 1)
    } else {
        Err(Refusal::new(8, 0))
    }
}

/// Records handed over as a plan: 1, then 4 and 6 guest by guest.
pub fn check(plan: &Plan) -> Refusal {
    Refusal::of(&well_formed(plan))
}

/// The records' order, as a result.
pub fn well_formed(plan: &Plan) -> Result<(), Refusal> {
    if !(1..=MOST_GUESTS as u32).contains(&plan.count) {
        return Err(Refusal::new(1, 0));
    }
    for (place, guest) in plan.listed().iter().enumerate() {
        let earlier = &plan.guests[..place];
        if !head_in_range(guest) || seen(earlier, guest.id) {
            return Err(Refusal::new(4, place as u32));
        }
        if !tasks_in_range(guest) {
            return Err(Refusal::new(6, place as u32));
        }
    }
    Ok(())
}

/// Whether the id is already seen in an earlier guest.
fn seen(earlier: &[Guest], id: u32) -> bool {
    earlier.iter().any(|guest| guest.id == id)
}

/// Whether id, capacity, period and number of tasks are in their ranges.
fn head_in_range(guest: &Guest) -> bool {
    guest.id != 0
        && (1..=guest.period).contains(&guest.capacity)
        && (1..=LONGEST).contains(&guest.period)
        && (1..=MOST_TASKS as u32).contains(&guest.tasks)
}

/// Whether each task's run, period and deadline are in their ranges, and a bound task's period is a multiple of its
/// guest's, which is in its own range.
fn tasks_in_range(guest: &Guest) -> bool {
    let mut tasks = guest.places();
    tasks.all(|task| task_in_range(guest, task) && may_start(guest, task))
}

fn may_start(guest: &Guest, task: usize) -> bool {
    !guest.is_bound(task) || guest.every[task].is_multiple_of(guest.period)
}

fn task_in_range(guest: &Guest, task: usize) -> bool {
    let (run, every, deadline) = (guest.run[task], guest.every[task], guest.deadline[task]);
    (1..=LONGEST).contains(&run)
        && (1..=LONGEST).contains(&every)
        && (1..=every).contains(&deadline)
}
