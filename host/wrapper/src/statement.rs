//! The log of finished jobs and the statement over it, as Rust has them.

use crate::{BLOCK, LogEntries, LogEntry, Plan, Refusal, Stated, Statement, exports};

/// The most jobs in one log block.
pub const MOST_JOBS: usize = 41;

/// The blocks of a log that were passed over.
#[derive(Clone, Copy, Debug, Default, PartialEq, Eq)]
pub struct Passed {
    /// How many.
    pub blocks: u64,
    /// The first of them, if any was.
    pub first: Option<PassedOver>,
}

/// A block of a log that was passed over.
#[derive(Clone, Copy, Debug, PartialEq, Eq)]
pub struct PassedOver {
    /// Its position in the log, from 0.
    pub position: u64,
    /// By which number: 2, 3, 18, 5, 7, 8 or 19.
    pub number: u32,
}

/// What a statement says of one task.
#[derive(Clone, Copy, Debug, Default, PartialEq, Eq)]
pub struct Line {
    /// The jobs counted.
    pub jobs: u32,
    /// Their longest age.
    pub longest: u32,
    /// How many were late: their age was past the deadline.
    pub late: u32,
    /// The exact sum of their margins, deadline less age.
    pub margins: i64,
}

/// Writes a log block of 1 to 41 jobs to the first 512 bytes of the buffer, and to no others.
///
/// ```
/// use coreshare::{LogEntry, write_log};
///
/// let job = LogEntry::new(9, 1, 24);
/// let mut buffer = [0xFF; 600];
/// write_log(&[job], &mut buffer)?;
/// assert_eq!(buffer[..8], [3, 0, 1, 0, 0, 0, 0, 0]);
/// assert_eq!(buffer[8..20], [9, 0, 0, 0, 1, 0, 0, 0, 24, 0, 0, 0]);
/// assert_eq!(buffer[512..], [0xFF; 88]);
/// assert_eq!(write_log(&[job; 42], &mut buffer).unwrap_err().number, 18);
/// assert_eq!(write_log(&[job], &mut buffer[..511]).unwrap_err().number, 12);
/// # Ok::<(), coreshare::Refusal>(())
/// ```
pub fn write_log(jobs: &[LogEntry], buffer: &mut [u8]) -> Result<(), Refusal> {
    exports::write_log(&LogEntries::new(jobs), buffer).or(())
}

impl LogEntry {
    /// A finished job: the guest's id, the task's number from 1 and the age, as
    /// [`Tick::Finished`](crate::Tick::Finished) tells them.
    pub const fn new(guest: u32, task: u32, age: u32) -> LogEntry {
        LogEntry { guest, task, age }
    }
}

impl LogEntries {
    /// These jobs. Of more than 41 the first 41 are kept beside their number, which the writer refuses.
    fn new(jobs: &[LogEntry]) -> LogEntries {
        let kept = jobs.len().min(MOST_JOBS);
        let mut made = LogEntries {
            count: u32::try_from(jobs.len()).unwrap_or(u32::MAX),
            entries: [LogEntry::default(); MOST_JOBS],
        };
        made.entries[..kept].copy_from_slice(&jobs[..kept]);
        made
    }
}

impl Default for Statement {
    fn default() -> Statement {
        Statement::EMPTY
    }
}

impl Statement {
    /// The statement in which nothing is counted yet.
    pub const EMPTY: Statement = Statement {
        blocks: 0,
        margins: [0; 128],
        jobs: [0; 128],
        longest: [0; 128],
        late: [0; 128],
    };

    /// Counts the jobs of a log, any number of blocks, against a plan's blocks, and tells which blocks of the log
    /// were passed over. A refused call changes nothing.
    ///
    /// ```
    /// use coreshare::{BLOCK, Guest, Line, LogEntry, PassedOver, Plan, Statement, write_log};
    ///
    /// let (mut plan, mut log) = ([0; BLOCK], [0; 3 * BLOCK]);
    /// Guest::new(7, 2, 5, &[[1, 20, 20]]).write(0, &mut plan)?;
    /// write_log(&[LogEntry::new(7, 1, 4), LogEntry::new(7, 1, 21)], &mut log)?;
    /// write_log(&[LogEntry::new(8, 1, 4)], &mut log[BLOCK..])?;
    /// let mut statement = Statement::EMPTY;
    /// let passed = statement.extend(&plan, &log)?;
    /// assert_eq!(passed.blocks, 2);
    /// assert_eq!(passed.first, Some(PassedOver { position: 1, number: 7 }));
    /// let line = Line { jobs: 2, longest: 21, late: 1, margins: 16 - 1 };
    /// assert_eq!(statement.line(&Plan::read(&plan)?, 7, 1), Some(line));
    /// assert_eq!(statement.blocks, 1);
    /// assert_eq!(statement.extend(&plan, &log[1..]).unwrap_err().number, 1);
    /// # Ok::<(), coreshare::Refusal>(())
    /// ```
    pub fn extend(&mut self, plan: &[u8], log: &[u8]) -> Result<Passed, Refusal> {
        let outcome = exports::statement(self, plan, log);
        *self = outcome.statement;
        outcome.refusal.or(outcome.passed_over())
    }

    /// The same of a log that comes in parts, each of whole blocks; positions are counted over all of them. If one
    /// is refused, nothing of any part is counted.
    ///
    /// ```
    /// use coreshare::{BLOCK, Guest, LogEntry, PassedOver, Statement, write_log};
    ///
    /// let (mut plan, mut log) = ([0; BLOCK], [0; 4 * BLOCK]);
    /// Guest::new(7, 2, 5, &[[1, 20, 20]]).write(0, &mut plan)?;
    /// for (task, block) in [1, 1, 2, 1].into_iter().zip(log.chunks_mut(BLOCK)) {
    ///     write_log(&[LogEntry::new(7, task, 4)], block)?;
    /// }
    /// let (mut parts, mut whole) = (Statement::EMPTY, Statement::EMPTY);
    /// let passed = parts.extend_by_parts(&plan, log.chunks(BLOCK))?;
    /// assert_eq!(passed.first, Some(PassedOver { position: 2, number: 8 }));
    /// assert_eq!(whole.extend(&plan, &log)?, passed);
    /// assert_eq!(parts, whole);
    /// assert!(parts.extend_by_parts(&plan, log.chunks(1_000)).is_err());
    /// assert_eq!(parts, whole);
    /// # Ok::<(), coreshare::Refusal>(())
    /// ```
    pub fn extend_by_parts(
        &mut self,
        plan: &[u8],
        parts: impl IntoIterator<Item = impl AsRef<[u8]>>,
    ) -> Result<Passed, Refusal> {
        let mut next = *self;
        // The plan and the statement are refused as with any log, even if no part comes.
        let mut passed = next.extend(plan, &[])?;
        let mut before = 0;
        for part in parts {
            let part = part.as_ref();
            passed = passed.and(next.extend(plan, part)?, before);
            before += (part.len() / BLOCK) as u64;
        }
        *self = next;
        Ok(passed)
    }

    /// What is stated of a task, by its guest's id and its number from 1, in the plan that the statement is kept
    /// against; none where the plan has no such guest or the guest no such task.
    ///
    /// ```
    /// use coreshare::{Guest, Line, Plan, Statement};
    ///
    /// let plan = Plan::new(&[Guest::new(7, 2, 5, &[[1, 20, 20]])]);
    /// assert_eq!(Statement::EMPTY.line(&plan, 7, 1), Some(Line::default()));
    /// assert_eq!(Statement::EMPTY.line(&plan, 7, 2), None);
    /// assert_eq!(Statement::EMPTY.line(&plan, 8, 1), None);
    /// ```
    pub fn line(&self, plan: &Plan, id: u32, task: u32) -> Option<Line> {
        let listed = plan.guests.iter().take(plan.count as usize);
        let (place, guest) = listed.enumerate().find(|(_, guest)| guest.id == id)?;
        if !(1..=guest.tasks.min(16)).contains(&task) {
            return None;
        }
        let at = 16 * place + task as usize - 1;
        Some(Line {
            jobs: self.jobs[at],
            longest: self.longest[at],
            late: self.late[at],
            margins: self.margins[at],
        })
    }
}

impl Stated {
    fn passed_over(&self) -> Passed {
        let Stated {
            passed: blocks,
            position,
            number,
            ..
        } = *self;
        Passed {
            blocks,
            first: (blocks > 0).then_some(PassedOver { position, number }),
        }
    }
}

impl Passed {
    /// These, and then those of the next part, which comes after so many blocks.
    fn and(self, next: Passed, before: u64) -> Passed {
        let later = next.first.map(|first| PassedOver {
            position: before + first.position,
            ..first
        });
        Passed {
            blocks: self.blocks + next.blocks,
            first: self.first.or(later),
        }
    }
}
