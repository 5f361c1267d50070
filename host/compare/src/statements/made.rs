//! Random logs with their plans and running statements, and random jobs to write: good ones, and ones that are refused
//! or passed over in every way.

use super::writer::buffer;
use crate::blocks;
use crate::call::{Call, Logged};
use crate::plans::{self, Size};
use crate::random::Random;
use reference::dispatcher::PLACES;
use reference::log::{LONGEST_AGE, LogEntries, LogEntry, MOST_JOBS, block_of};
use reference::plan::{BLOCK, Plan, blocks_of, seal};
use reference::statement::{MOST_BLOCKS, Statement, WIDEST_MARGIN};

/// Where a log block has its number of jobs, and where its entries begin.
const COUNT: usize = 2;
const ENTRIES: usize = 8;
const ENTRY: usize = 12;

/// A running statement, and a plan with a log for it; now and then the plan is damaged, or the log has another length.
pub fn logged(random: &mut Random, size: Size) -> (Statement, Logged) {
    let plan = plans::clean(random, size);
    let mut log: Vec<u8> = (0..blocks(random))
        .flat_map(|_| block(random, &plan))
        .collect();
    match random.below(24) {
        0 => log.push(0),
        1 => log.truncate(log.len().saturating_sub(1)),
        2 => log.truncate(random.below(log.len() + 1)),
        _ => (),
    }
    let plan = match random.below(32) {
        0 => blocks::noise(random),
        1..=3 => blocks::damaged(random, &plan),
        _ => blocks_of(&plan),
    };
    (statement(random), Logged { plan, log })
}

/// How many blocks: mostly a few, now and then many.
fn blocks(random: &mut Random) -> usize {
    match random.below(16) {
        0 => 0,
        1 => random.below(61),
        _ => random.below(8),
    }
}

/// A block of jobs of a plan; every fourth is spoiled in one way or in two.
fn block(random: &mut Random, plan: &Plan) -> [u8; BLOCK] {
    let few = random.below(6);
    let count = random.pick(&[1, 2, few + 1, 40, MOST_JOBS]);
    let jobs: Vec<LogEntry> = (0..count).map(|_| job(random, plan)).collect();
    let mut block = block_of(&jobs);
    if random.once_in(4) {
        for _ in 0..random.from(1, 2) {
            spoil(random, &mut block, plan);
        }
        if !random.once_in(6) {
            seal(&mut block);
        }
    }
    block
}

/// A job of some task of the plan, with an age about its deadline, or any.
fn job(random: &mut Random, plan: &Plan) -> LogEntry {
    let guest = plan.guests[random.below(plan.listed().len())];
    let task = random.below(guest.tasks as usize);
    let deadline = guest.deadline[task];
    let about = (deadline + 1).saturating_sub(random.from(0, 2));
    let any = random.from(1, LONGEST_AGE);
    let age = random.pick(&[1, about, about, deadline / 2, LONGEST_AGE, any]);
    LogEntry::new(guest.id, task as u32 + 1, age.clamp(1, LONGEST_AGE))
}

/// Makes a block one that is passed over, or by luck not; its check is left.
fn spoil(random: &mut Random, block: &mut [u8; BLOCK], plan: &Plan) {
    let count = u16::from_le_bytes([block[COUNT], block[COUNT + 1]]);
    let entry = ENTRIES + ENTRY * random.below(usize::from(count).clamp(1, MOST_JOBS));
    let any = random.below(BLOCK);
    match random.below(8) {
        0 => block[any] ^= 1 << random.below(8),
        1 => block[0..2].copy_from_slice(&random.pick::<u16>(&[0, 1, 2, 4, 259]).to_le_bytes()),
        2 => {
            let counts = [
                0,
                count.wrapping_sub(1),
                count.wrapping_add(1),
                41,
                42,
                u16::MAX,
            ];
            block[COUNT..COUNT + 2].copy_from_slice(&random.pick(&counts).to_le_bytes());
        }
        3 => put(
            block,
            entry + 8,
            random.pick(&[0, 1, 1_000_000, 1_000_001, u32::MAX]),
        ),
        4 => block[random.pick(&[4, 5, 6, 7, 500, 507])] = random.pick(&[1, 128]),
        5 => put(block, entry, plans::some_id(random, plan)),
        6 => put(
            block,
            entry + 4,
            random.pick(&[0, 1, 2, 3, 16, 17, u32::MAX]),
        ),
        _ => {
            put(block, entry, random.edge());
            put(block, ENTRIES + 4, random.pick(&[0, 17]));
        }
    }
}

fn put(block: &mut [u8; BLOCK], at: usize, value: u32) {
    block[at..at + 4].copy_from_slice(&value.to_le_bytes());
}

/// A running statement: an empty one, one in its ranges, or one that is mostly out of them.
fn statement(random: &mut Random) -> Statement {
    match random.below(4) {
        0 => Statement::EMPTY,
        1 | 2 => in_range(random),
        _ => {
            let mut statement = in_range(random);
            spoil_statement(random, &mut statement);
            statement
        }
    }
}

/// A statement that any log may go on from, though no log may have given it.
fn in_range(random: &mut Random) -> Statement {
    let any = u64::from(random.from(0, MOST_BLOCKS as u32));
    let near = MOST_BLOCKS - u64::from(random.from(0, 8));
    let mut statement = Statement {
        blocks: random.pick(&[0, 1, 2, near, near, MOST_BLOCKS, any]),
        ..Statement::EMPTY
    };
    let most = MOST_JOBS as u32 * statement.blocks as u32;
    for line in 0..PLACES {
        let jobs = some_up_to(random, most);
        statement.jobs[line] = jobs;
        statement.late[line] = some_up_to(random, jobs);
        statement.longest[line] = some_up_to(random, LONGEST_AGE);
        let widest = WIDEST_MARGIN * i64::from(jobs);
        let any = (random.next() % (2 * widest as u64 + 1)) as i64 - widest;
        statement.margins[line] = random.pick(&[0, widest, -widest, any]);
    }
    statement
}

/// None, as many as there may be, or any number between.
fn some_up_to(random: &mut Random, most: u32) -> u32 {
    let any = random.from(0, most);
    random.pick(&[0, most, any, any])
}

/// Puts one number past its limit, or by luck at it.
fn spoil_statement(random: &mut Random, statement: &mut Statement) {
    let line = random.below(PLACES);
    let jobs = statement.jobs[line];
    let widest = WIDEST_MARGIN * i64::from(jobs);
    match random.below(6) {
        0 => statement.blocks = random.pick(&[MOST_BLOCKS + 1, 1 << 32, u64::MAX]),
        1 => statement.jobs[line] = MOST_JOBS as u32 * statement.blocks as u32 + 1,
        2 => statement.late[line] = random.pick(&[jobs + 1, u32::MAX]),
        3 => statement.longest[line] = random.pick(&[LONGEST_AGE + 1, u32::MAX]),
        4 => statement.margins[line] = random.pick(&[widest + 1, -widest - 1]),
        _ => statement.margins[line] = random.pick(&[i64::MIN, i64::MAX]),
    }
}

/// Jobs to write, with anything past their number, into a buffer that is mostly long enough.
pub fn write(random: &mut Random) -> Call {
    let count = match random.below(6) {
        0 => random.edge(),
        _ => random.from(0, 42),
    };
    let mut jobs = LogEntries {
        count,
        entries: std::array::from_fn(|_| {
            LogEntry::new(random.edge(), random.edge(), random.from(1, LONGEST_AGE))
        }),
    };
    let listed = (count as usize).min(MOST_JOBS);
    for entry in &mut jobs.entries[listed..] {
        entry.age = random.edge();
    }
    if random.once_in(3) {
        jobs.entries[random.below(MOST_JOBS)].age = random.edge();
    }
    let any = random.below(1_024);
    let length = random.pick(&[512, 512, 513, 511, 700, any]);
    Call::WriteLog(Box::new(jobs), buffer(length))
}
