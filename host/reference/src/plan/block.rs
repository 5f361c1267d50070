//! The plan block: its layout, the reader, the writer and the finder.

mod bytes;
mod form;

use super::{Guest, MOST_GUESTS, MOST_TASKS, Plan, Refusal, head_in_range, seen, tasks_in_range};
pub(crate) use bytes::{put_short, put_word, short, word};
pub use form::{block_of, blocks_of};
use std::ops::Range;

/// The bytes of one block.
pub const BLOCK: usize = 512;

/// The bytes of the longest plan.
pub const LONGEST_PLAN: usize = BLOCK * MOST_GUESTS;

pub(crate) const KIND: usize = 0;
pub(crate) const PLACE: usize = 2;
const ID: usize = 4;
const CAPACITY: usize = 8;
const PERIOD: usize = 12;
const TASKS: usize = 16;
const CHARGE: usize = 18;
pub(crate) const MARKS: usize = 20;
pub(crate) const SERVER: usize = 22;
const ENTRIES: usize = 32;
const ENTRY: usize = 12;
const SECOND_GAP: Range<usize> = 224..508;
const CHECK: usize = 508;

/// The kind of a Periodic guest's block with no marks, and of one with marks or a Deferrable guest.
pub(crate) const PLAIN: u16 = 1;
const EXTENDED: u16 = 2;

/// Byte 22 of a block of kind 2: Periodic or Deferrable.
pub(crate) const PERIODIC: u8 = 0;
pub(crate) const DEFERRABLE: u8 = 1;

/// What reading gives: a refusal, or the plan. A refused plan is zero throughout.
#[derive(Clone, Copy, Debug, Default, PartialEq, Eq)]
pub struct Read {
    pub refusal: Refusal,
    pub plan: Plan,
}

/// Reading: 1, then block by block 2, 3, 4, 5, 6.
pub fn read(bytes: &[u8]) -> Read {
    let result = read_plan(bytes);
    Read {
        refusal: Refusal::of(&result),
        plan: result.unwrap_or_default(),
    }
}

/// The reading order, then 7; the found block's place.
pub fn find(bytes: &[u8], id: u32) -> Refusal {
    match place_in(bytes, id) {
        Ok(place) => Refusal::new(0, place as u32),
        Err(refusal) => refusal,
    }
}

/// The guest's 512 bytes as they stand in the lent plan, or on a refusal an empty part.
pub fn found(bytes: &[u8], id: u32) -> &[u8] {
    match place_in(bytes, id) {
        Ok(place) => &bytes[BLOCK * place..BLOCK * (place + 1)],
        Err(_) => &[],
    }
}

fn place_in(bytes: &[u8], id: u32) -> Result<usize, Refusal> {
    read_plan(bytes)?.place_of(id)
}

/// Writer: 12, 3, 4, 6, then 23, a Deferrable guest; then the first 512 bytes of the lent buffer and no others.
pub fn write(guest: &Guest, place: u32, buffer: &mut [u8]) -> Refusal {
    let result = may_write(guest, place, buffer.len());
    if result.is_ok() {
        buffer[..BLOCK].copy_from_slice(&written(guest, place as u16));
    }
    Refusal::of(&result)
}

fn may_write(guest: &Guest, place: u32, length: usize) -> Result<(), Refusal> {
    if length < BLOCK {
        return Err(Refusal::new(12, 0));
    }
    if place > 7 {
        return Err(Refusal::new(3, place));
    }
    if !head_in_range(guest) {
        return Err(Refusal::new(4, place));
    }
    if !tasks_in_range(guest) {
        return Err(Refusal::new(6, place));
    }
    if guest.is_deferrable() {
        return Err(Refusal::new(23, 0));
    }
    Ok(())
}

/// A length is that of a plan unless it is 0, not a multiple of 512, or above 4,096; else refusal 1.
pub(crate) fn length_in_range(bytes: &[u8]) -> Result<(), Refusal> {
    if bytes.is_empty() || !bytes.len().is_multiple_of(BLOCK) || bytes.len() > LONGEST_PLAN {
        return Err(Refusal::new(1, 0));
    }
    Ok(())
}

fn read_plan(bytes: &[u8]) -> Result<Plan, Refusal> {
    length_in_range(bytes)?;
    let mut plan = Plan::default();
    for (place, block) in bytes.chunks(BLOCK).enumerate() {
        let earlier = &plan.guests[..place];
        match read_block(block, place as u16, earlier) {
            Ok(guest) => plan.guests[place] = guest,
            Err(number) => return Err(Refusal::new(number, place as u32)),
        }
        plan.count += 1;
    }
    Ok(plan)
}

/// One block at its place after the earlier guests, or the refusal's number.
pub(crate) fn read_block(block: &[u8], place: u16, earlier: &[Guest]) -> Result<Guest, u32> {
    if sum_of_words(block) != 0 {
        return Err(2);
    }
    if !kind_in_range(block) || short(block, PLACE) != place {
        return Err(3);
    }
    let guest = guest_in(block);
    if !head_in_range(&guest) || seen(earlier, guest.id) {
        return Err(4);
    }
    if !zero_where_it_must_be(block, &guest) {
        return Err(5);
    }
    if !tasks_in_range(&guest) {
        return Err(6);
    }
    Ok(guest)
}

/// Whether the kind is 1, or 2 with a mark or a 1 in byte 22.
fn kind_in_range(block: &[u8]) -> bool {
    match short(block, KIND) {
        PLAIN => true,
        EXTENDED => short(block, MARKS) != 0 || block[SERVER] == DEFERRABLE,
        _ => false,
    }
}

/// The place that a block carries, whatever its own is.
pub(crate) fn carried_place(block: &[u8]) -> u16 {
    short(block, PLACE)
}

/// The sum of the block's 128 little-endian words, modulo 4,294,967,296.
pub(crate) fn sum_of_words(block: &[u8]) -> u32 {
    let sum: u64 = (0..128).map(|k| u64::from(word(block, 4 * k))).sum();
    (sum % 4_294_967_296) as u32
}

/// Kind 1 reads as all marks zero and Periodic.
fn guest_in(block: &[u8]) -> Guest {
    let (marks, server) = match short(block, KIND) {
        EXTENDED => (short(block, MARKS), block[SERVER]),
        _ => (0, PERIODIC),
    };
    let column = |of: usize| std::array::from_fn(|task| word(block, entry(task) + 4 * of));
    Guest {
        id: word(block, ID),
        capacity: word(block, CAPACITY),
        period: word(block, PERIOD),
        tasks: u32::from(short(block, TASKS)),
        charge: short(block, CHARGE),
        marks,
        deferrable: u32::from(server),
        run: column(0),
        every: column(1),
        deadline: column(2),
    }
}

/// Whether the bytes that no number stands in are zero, and so the marks past the tasks; and byte 22 of kind 2 is
/// Periodic or Deferrable.
fn zero_where_it_must_be(block: &[u8], guest: &Guest) -> bool {
    let first_gap = match short(block, KIND) {
        EXTENDED => SERVER + 1..ENTRIES,
        _ => MARKS..ENTRIES,
    };
    let server_in_range = [PERIODIC, DEFERRABLE].contains(&block[SERVER]);
    let past_the_tasks = entry(guest.tasks as usize)..entry(MOST_TASKS);
    let zero = |part: Range<usize>| block[part].iter().all(|byte| *byte == 0);
    let no_marks_past_the_tasks = guest.marks == guest.marks_of_tasks();
    zero(first_gap)
        && server_in_range
        && no_marks_past_the_tasks
        && zero(past_the_tasks)
        && zero(SECOND_GAP)
}

/// The block that is written: kind 1 when all marks of the tasks are zero, else kind 2, and byte 22 is zero.
fn written(guest: &Guest, place: u16) -> [u8; BLOCK] {
    let marks = guest.marks_of_tasks();
    let kind = match marks {
        0 => PLAIN,
        _ => EXTENDED,
    };
    let mut block = [0; BLOCK];
    put_short(&mut block, KIND, kind);
    put_short(&mut block, PLACE, place);
    put_word(&mut block, ID, guest.id);
    put_word(&mut block, CAPACITY, guest.capacity);
    put_word(&mut block, PERIOD, guest.period);
    put_short(&mut block, TASKS, guest.tasks as u16);
    put_short(&mut block, CHARGE, guest.charge);
    put_short(&mut block, MARKS, marks);
    block[SERVER] = PERIODIC;
    for task in guest.places() {
        put_word(&mut block, entry(task), guest.run[task]);
        put_word(&mut block, entry(task) + 4, guest.every[task]);
        put_word(&mut block, entry(task) + 8, guest.deadline[task]);
    }
    seal(&mut block);
    block
}

/// The check makes the sum of the block's words equal zero.
pub fn seal(block: &mut [u8]) {
    put_word(block, CHECK, 0);
    let rest = sum_of_words(block);
    put_word(block, CHECK, rest.wrapping_neg());
}

/// Where a task's entry begins.
fn entry(task: usize) -> usize {
    ENTRIES + ENTRY * task
}
