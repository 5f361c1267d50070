//! The statement of finished jobs, changed in place.

use crate::block::{BLOCK, read_into};
use crate::log::{LogEntry, MOST_JOBS, entries};
use crate::records::LONGEST;
use crate::{Plan, Refusal};

/// The most blocks that a statement counts, and the widest margin.
const MOST_BLOCKS: u64 = 1_000_000;
const WIDEST: u64 = 999_999;

/// Task `t` of guest `g` at `16 * g + t`.
#[repr(C)]
#[derive(Clone, Copy, Debug, PartialEq, Eq)]
pub struct Statement {
    pub blocks: u64,
    pub margins: [i64; 128],
    pub jobs: [u32; 128],
    pub longest: [u32; 128],
    pub late: [u32; 128],
}

/// How many blocks were passed over, and the position and number of the first.
#[derive(Clone, Copy, Debug, Default, PartialEq, Eq)]
pub struct Passed {
    pub blocks: u64,
    pub first: Option<(u64, u32)>,
}

/// A job to be counted in a line.
#[derive(Clone, Copy, Default)]
struct Job {
    line: usize,
    deadline: u32,
    age: u32,
}

impl Statement {
    pub const EMPTY: Statement = Statement {
        blocks: 0,
        margins: [0; 128],
        jobs: [0; 128],
        longest: [0; 128],
        late: [0; 128],
    };

    /// Counts a log's blocks; a refused call changes nothing.
    pub fn extend(&mut self, plan: &[u8], log: &[u8]) -> Result<Passed, Refusal> {
        let mut records = Plan::default();
        read_into(plan, &mut records)?;
        self.check()?;
        let (blocks, rest) = log.as_chunks::<BLOCK>();
        if !rest.is_empty() {
            return Err(Refusal::new(1, 0));
        }
        let mut passed = Passed::default();
        for (position, block) in (0..).zip(blocks) {
            if let Err(number) = self.take(&records, block) {
                passed.first.get_or_insert((position, number));
                passed.blocks += 1;
            }
        }
        Ok(passed)
    }

    fn check(&self) -> Result<(), Refusal> {
        let in_range = |line: usize| {
            let jobs = u64::from(self.jobs[line]);
            jobs <= MOST_JOBS as u64 * self.blocks
                && self.late[line] <= self.jobs[line]
                && self.longest[line] <= LONGEST
                && self.margins[line].unsigned_abs() <= WIDEST * jobs
        };
        match self.blocks <= MOST_BLOCKS && (0..128).all(in_range) {
            true => Ok(()),
            false => Err(Refusal::new(14, 0)),
        }
    }

    /// Counts a block, or tells the number that it is passed over by.
    fn take(&mut self, plan: &Plan, block: &[u8; BLOCK]) -> Result<(), u32> {
        let mut room = [Job::default(); MOST_JOBS];
        let mut count = 0;
        let mut no_task = false;
        for (entry, job) in entries(block)?.zip(&mut room) {
            match job_of(plan, &entry) {
                Ok(found) => *job = found,
                Err(7) => return Err(7),
                Err(_) => no_task = true,
            }
            count += 1;
        }
        if no_task {
            return Err(8);
        }
        if self.blocks == MOST_BLOCKS {
            return Err(19);
        }
        self.blocks += 1;
        for job in &room[..count] {
            self.jobs[job.line] += 1;
            self.longest[job.line] = self.longest[job.line].max(job.age);
            self.late[job.line] += u32::from(job.age > job.deadline);
            self.margins[job.line] += i64::from(job.deadline) - i64::from(job.age);
        }
        Ok(())
    }
}

/// The line and the deadline of an entry's task, or the refusal's number.
fn job_of(plan: &Plan, entry: &LogEntry) -> Result<Job, u32> {
    let listed = plan
        .listed()
        .iter()
        .position(|guest| guest.id == entry.guest);
    let place = listed.ok_or(7_u32)?;
    let guest = &plan.guests[place];
    if !(1..=guest.tasks).contains(&entry.task) {
        return Err(8);
    }
    let task = entry.task as usize - 1;
    Ok(Job {
        line: 16 * place + task,
        deadline: guest.deadline[task],
        age: entry.age,
    })
}
