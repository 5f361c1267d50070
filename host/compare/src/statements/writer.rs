//! Log blocks written: numbers of jobs, ages and buffers at their edges.

use crate::call::Call;
use crate::pairs::pairs;
use crate::session::Session;
use reference::log::{LogEntries, LogEntry, MOST_JOBS};

pub fn compare(session: &mut Session) {
    counts_and_lengths(session);
    ages(session);
    guests_and_tasks(session);
}

/// Something in every place of a buffer.
pub fn buffer(length: usize) -> Vec<u8> {
    (0..length).map(|at| 0xA5 ^ at as u8).collect()
}

fn written(session: &mut Session, jobs: &LogEntries, length: usize) {
    session.compare(Call::WriteLog(Box::new(*jobs), buffer(length)));
}

/// As many entries as there may be, with a number of jobs for each.
fn entries(count: u32) -> LogEntries {
    let jobs: Vec<LogEntry> = (1..=MOST_JOBS as u32)
        .map(|at| LogEntry::new(at << 24, 257 * at, 20_000 * at))
        .collect();
    LogEntries {
        count,
        ..LogEntries::new(&jobs)
    }
}

/// Numbers of jobs in their range and past it, and buffers' lengths about 512, with ages that are right and not.
fn counts_and_lengths(session: &mut Session) {
    let more = [43, 255, 256, 257, 65_536, 65_537, 65_577, 1 << 31, u32::MAX];
    for count in (0..=42).chain(more) {
        let mut jobs = entries(count);
        for age in [1, 0] {
            jobs.entries[0].age = age;
            for length in [0, 1, 8, 256, 508, 511, 512, 513, 600, 1_024] {
                written(session, &jobs, length);
            }
        }
    }
}

/// Ages at their edges in each entry, those past the number of jobs too.
fn ages(session: &mut Session) {
    for count in [1, 2, 20, 40, 41] {
        for at in 0..MOST_JOBS {
            for age in [0, 1, 999_999, 1_000_000, 1_000_001, 1 << 31, u32::MAX] {
                let mut jobs = entries(count);
                jobs.entries[at].age = age;
                for length in [511, 512, 514] {
                    written(session, &jobs, length);
                }
            }
        }
    }
}

/// Any guest id and any task number is written as it is.
fn guests_and_tasks(session: &mut Session) {
    for (guest, task) in pairs(&[0, 1, 9, 16, 17, 255, 65_536, 1 << 31, u32::MAX]) {
        let mut jobs = entries(3);
        jobs.entries[1] = LogEntry::new(guest, task, 24);
        written(session, &jobs, 512);
        jobs.count = 1;
        written(session, &jobs, 512);
    }
}
