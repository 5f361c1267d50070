//! The structs that cross the C interface, field by field as `coreshare.h` has them.

mod proposed;
mod salvage;
mod statement;

pub use proposed::{Chosen, Ordered};
pub use salvage::{Fate, Salvaged};
pub use statement::{LogEntries, LogEntry, Stated, Statement};

use core::fmt;

/// One guest's record. Entries and marks past `tasks` are not looked at.
///
/// A task with a [`mark`](crate::mark) is bound to its guest's period: its own period is a multiple of the guest's,
/// its release is taken only while the guest's position is 0, and its response has no gap of period less capacity
/// in it.
///
/// A Deferrable guest is one of an old plan. It is still read and judged, guests and tasks below it with its jitter of
/// period less capacity, but no longer written or started: [`convert`](crate::convert) makes a Periodic guest of it.
///
/// ```
/// use coreshare::{BLOCK, Dispatcher, Guest, GuestVerdict, Plan, TaskVerdict};
///
/// let above = Guest { deferrable: 1, ..Guest::new(7, 2, 5, &[[1, 20, 20]]) };
/// let plan = Plan::new(&[above, Guest::new(9, 8, 20, &[[10, 50, 50], [8, 100, 100]])]);
/// assert_eq!(plan.guest_verdict(9), Ok(GuestVerdict::Fitted(16)));
/// assert_eq!(plan.task_verdict(9, 1), Ok(TaskVerdict::Met(38)));
/// assert_eq!(plan.task_verdict(9, 2), Ok(TaskVerdict::Met(82)));
/// assert_eq!(above.write(0, &mut [0; BLOCK]).unwrap_err().number, 23);
/// assert_eq!(Dispatcher::fresh(&plan).unwrap_err().number, 23);
/// ```
#[repr(C)]
#[derive(Clone, Copy, Debug, Default, PartialEq, Eq)]
pub struct Guest {
    /// Not 0, and once in a plan.
    pub id: u32,
    /// 1 to the period.
    pub capacity: u32,
    /// 1 to 1,000,000 ticks.
    pub period: u32,
    /// The number of tasks, 1 to 16.
    pub tasks: u32,
    /// Added twice to every task's run: the switch in and the switch out.
    pub charge: u16,
    /// Which tasks are bound, bit 0 for task 1 and so on; 0 for none.
    pub marks: u16,
    /// 0 for a Periodic guest, any other number for a Deferrable one, which is read as 1.
    pub deferrable: u32,
    /// Each task's run, 1 to 1,000,000.
    pub run: [u32; 16],
    /// Each task's period, 1 to 1,000,000; of a bound task a multiple of the guest's.
    pub every: [u32; 16],
    /// Each task's deadline, 1 to its period.
    pub deadline: [u32; 16],
}

/// A plan: its guests in priority order, first is highest. Guests past `count` are not looked at.
#[repr(C)]
#[derive(Clone, Copy, Debug, Default, PartialEq, Eq)]
pub struct Plan {
    /// The number of guests, 1 to 8.
    pub count: u32,
    pub guests: [Guest; 8],
}

/// A refusal's number and place, as documents 01 and 02 list them; number 0 is no refusal.
#[repr(C)]
#[derive(Clone, Copy, Debug, Default, PartialEq, Eq)]
pub struct Refusal {
    pub number: u32,
    pub place: u32,
}

/// What reading gives. The plan of a refused reading is zero throughout.
#[repr(C)]
#[derive(Clone, Copy, Debug, Default, PartialEq, Eq)]
pub struct Read {
    pub refusal: Refusal,
    pub plan: Plan,
}

/// A verdict with its ticks, both 0 on a refusal.
#[repr(C)]
#[derive(Clone, Copy, Debug, Default, PartialEq, Eq)]
pub struct Verdict {
    pub number: u32,
    pub place: u32,
    pub verdict: u32,
    pub ticks: u32,
}

/// Where a guest's block stands in a plan with an amendment sheet, or the refusal.
#[repr(C)]
#[derive(Clone, Copy, Debug, Default, PartialEq, Eq)]
pub struct Located {
    pub number: u32,
    /// Of the block or of the refusal: in the sheet if `sheet` is 1, else in the plan.
    pub place: u32,
    /// 1 for the sheet, 0 for the plan.
    pub sheet: u32,
}

/// The dispatcher's state. Task `t` of guest `g`, both from 0, has its numbers at `16 * g + t`.
///
/// Beside it stands where the ticks went, which no refusal looks at; [`Dispatcher::ticks`],
/// [`Dispatcher::idled`] and [`Dispatcher::nobodys`] read it. There are four bytes of padding before
/// `usage`, which the library neither reads nor writes: compare states by their fields and never by
/// their bytes.
#[repr(C)]
#[derive(Clone, Copy, Debug, PartialEq, Eq)]
pub struct Dispatcher {
    pub plan: Plan,
    /// The ticks of guest `g` at `g`, those of them that it idled away at `8 + g`, and at 16 the
    /// ticks that no guest had; each goes on at 0 after `u64::MAX`.
    pub usage: [u64; 17],
    /// Each guest's capacity left.
    pub left: [u32; 8],
    /// Each guest's position in its period.
    pub position: [u32; 8],
    /// Each task's run left.
    pub rest: [u32; 128],
    /// Each task's ticks until its next release may be taken.
    pub wait: [u32; 128],
    /// The age of each task's last job.
    pub age: [u32; 128],
}

/// What had a tick: kind 0 no answer, 1 nobody, 2 a guest idled, 3 a task ran, 4 a job finished.
/// The guest is its id, the task its number from 1; what the kind does not name is 0.
#[repr(C)]
#[derive(Clone, Copy, Debug, Default, PartialEq, Eq)]
pub struct Answer {
    pub kind: u32,
    pub guest: u32,
    pub task: u32,
    pub age: u32,
    pub margin: i32,
}

/// What a fresh start gives. The state of a refused start is zero throughout.
#[repr(C)]
#[derive(Clone, Copy, Debug, PartialEq, Eq)]
pub struct Start {
    pub refusal: Refusal,
    pub dispatcher: Dispatcher,
}

/// What a release or a sheet of releases gives. The state of a refused call is unchanged.
#[repr(C)]
#[derive(Clone, Copy, Debug, PartialEq, Eq)]
pub struct Released {
    pub refusal: Refusal,
    pub dispatcher: Dispatcher,
}

/// What a tick gives. A refused tick has no answer and leaves the state unchanged.
#[repr(C)]
#[derive(Clone, Copy, Debug, PartialEq, Eq)]
pub struct Ticked {
    pub dispatcher: Dispatcher,
    pub refusal: Refusal,
    pub answer: Answer,
}

/// What a tick in place gives: the number of its refusal, or 0, and the answer.
#[repr(C)]
#[derive(Clone, Copy, Debug, PartialEq, Eq)]
pub struct TickIn {
    pub number: u32,
    pub answer: Answer,
}

/// What a run in place gives: the number of its refusal, or 0, the ticks done and the last tick's answer.
#[repr(C)]
#[derive(Clone, Copy, Debug, PartialEq, Eq)]
pub struct RunIn {
    pub number: u32,
    pub done: u32,
    pub answer: Answer,
}

/// What a run gives: the ticks done and the last tick's answer.
#[repr(C)]
#[derive(Clone, Copy, Debug, PartialEq, Eq)]
pub struct Run {
    pub refusal: Refusal,
    pub done: u32,
    pub answer: Answer,
    pub dispatcher: Dispatcher,
}

impl Refusal {
    /// The value, unless this is a refusal.
    pub(crate) fn or<T>(self, value: T) -> Result<T, Refusal> {
        match self.number {
            0 => Ok(value),
            _ => Err(self),
        }
    }

    /// What the number means.
    pub fn meaning(self) -> &'static str {
        match self.number {
            0 => "not refused",
            1 => "the length of the plan, sheet, log or file, or the guest count, is out of range",
            2 => "the block's words don't sum to zero",
            3 => {
                "the kind is neither 1 nor 2 with marks or Deferrable (a log's: not 3), or the place is not its own"
            }
            4 => "id, capacity, period or number of tasks is out of range",
            5 => {
                "a byte that must be zero, or a mark past the tasks, is not; or byte 22 is above 1"
            }
            6 => "a task's run, period (if bound, a multiple) or deadline is out of range",
            7 => "no such guest in the plan",
            8 => "no such task in the guest",
            9 => "release before the task's period has passed",
            10 => "release while the task's last job is unfinished",
            11 => "no capacity works",
            12 => "a buffer too short for the blocks to write, or fewer answer places than pairs",
            13 => "a run of more than 1,000,000 ticks",
            14 => "a state, as with a Deferrable guest, or a running statement outside its ranges",
            15 => "a sheet of more than 256 pairs",
            16 => "an amendment whose id is not in the plan, or whose place is not its guest's",
            17 => "release of a bound task while its guest's position is not 0",
            18 => "a log block's number of jobs, or an age, is out of range",
            19 => "a log block past the millionth",
            20 => "no block of the file is kept",
            21 => "a guest whose tasks are to be ordered is Deferrable, or a task of it is bound",
            22 => "no order of the guest's tasks works",
            23 => {
                "a Deferrable guest handed to the writer, to a fresh start or to a choice of capacities"
            }
            _ => "no number of document 01 or 02",
        }
    }
}

impl fmt::Display for Refusal {
    fn fmt(&self, to: &mut fmt::Formatter<'_>) -> fmt::Result {
        let Refusal { number, place } = self;
        write!(to, "refused {number} at {place}: {}", self.meaning())
    }
}

impl core::error::Error for Refusal {}
