//! Plan blocks read and written.

use crate::{Guest, Plan, Refusal};

pub const BLOCK: usize = 512;

pub fn read(bytes: &[u8]) -> Result<Plan, Refusal> {
    let mut plan = Plan::default();
    read_into(bytes, &mut plan)?;
    Ok(plan)
}

/// The same into the caller's records, of which those past the count stay as they are.
pub fn read_into(bytes: &[u8], plan: &mut Plan) -> Result<(), Refusal> {
    let (blocks, rest) = bytes.as_chunks::<BLOCK>();
    if !rest.is_empty() || !(1..=8).contains(&blocks.len()) {
        return Err(Refusal::new(1, 0));
    }
    for (place, block) in blocks.iter().enumerate() {
        let refuse = |number| Refusal::new(number, place as u32);
        let guest = decode(block, place).map_err(refuse)?;
        if plan.guests[..place].iter().any(|one| one.id == guest.id) {
            return Err(refuse(4));
        }
        zeros_and_tasks(block, &guest).map_err(refuse)?;
        plan.guests[place] = guest;
    }
    plan.count = blocks.len() as u32;
    Ok(())
}

/// The place of a guest's block.
pub fn find(bytes: &[u8], id: u32) -> Result<usize, Refusal> {
    read(bytes)?.place_of(id)
}

pub fn write(guest: &Guest, place: u32, buffer: &mut [u8]) -> Result<(), Refusal> {
    let Some(block) = buffer.first_chunk_mut::<BLOCK>() else {
        return Err(Refusal::new(12, 0));
    };
    if place > 7 {
        return Err(Refusal::new(3, place));
    }
    if !guest.head_in_range() {
        return Err(Refusal::new(4, place));
    }
    if !guest.tasks_in_range() {
        return Err(Refusal::new(6, place));
    }
    if guest.is_deferrable() {
        return Err(Refusal::new(23, 0));
    }
    encode(guest, place, block);
    Ok(())
}

/// The blocks of well-formed guests, as a plan.
pub fn blocks(guests: &[Guest]) -> Vec<u8> {
    let mut bytes = vec![0; BLOCK * guests.len()];
    for ((place, guest), block) in (0..).zip(guests).zip(bytes.chunks_mut(BLOCK)) {
        write(guest, place, block).expect("a well-formed guest");
    }
    bytes
}

/// The record of a block whose sum, kind, place and head are right, or the refusal's number.
pub(crate) fn decode(block: &[u8; BLOCK], place: usize) -> Result<Guest, u32> {
    if sum(block) != 0 {
        return Err(2);
    }
    let (marks, server) = match (short(block, 0), short(block, 20), block[22]) {
        (1, ..) => (0, 0),
        (2, marks, server) if marks != 0 || server == 1 => (marks, server),
        _ => return Err(3),
    };
    if carried_place(block) != place {
        return Err(3);
    }
    let mut guest = Guest {
        id: word(block, 4),
        capacity: word(block, 8),
        period: word(block, 12),
        tasks: short(block, 16).into(),
        charge: short(block, 18),
        marks,
        deferrable: server.into(),
        ..Guest::default()
    };
    for task in 0..16 {
        guest.run[task] = word(block, 32 + 12 * task);
        guest.every[task] = word(block, 36 + 12 * task);
        guest.deadline[task] = word(block, 40 + 12 * task);
    }
    match guest.head_in_range() {
        true => Ok(guest),
        false => Err(4),
    }
}

pub(crate) fn zeros_and_tasks(block: &[u8; BLOCK], guest: &Guest) -> Result<(), u32> {
    let zero = |part: &[u8]| part.iter().fold(0, |all, byte| all | byte) == 0;
    let is_plain = guest.marks == 0 && guest.deferrable == 0;
    let behind = if is_plain { 20 } else { 23 };
    let past = 32 + 12 * guest.tasks as usize;
    let live = guest.marks == guest.live_marks() && guest.deferrable <= 1;
    if !live || !zero(&block[behind..32]) || !zero(&block[past..508]) {
        return Err(5);
    }
    match guest.tasks_in_range() {
        true => Ok(()),
        false => Err(6),
    }
}

/// The place that a block carries.
pub(crate) fn carried_place(block: &[u8; BLOCK]) -> usize {
    short(block, 2).into()
}

fn encode(guest: &Guest, place: u32, block: &mut [u8; BLOCK]) {
    let marks = guest.live_marks();
    block.fill(0);
    put_short(block, 0, if marks == 0 { 1 } else { 2 });
    put_short(block, 2, place as u16);
    put_word(block, 4, guest.id);
    put_word(block, 8, guest.capacity);
    put_word(block, 12, guest.period);
    put_short(block, 16, guest.tasks as u16);
    put_short(block, 18, guest.charge);
    put_short(block, 20, marks);
    for task in 0..guest.tasks as usize {
        put_word(block, 32 + 12 * task, guest.run[task]);
        put_word(block, 36 + 12 * task, guest.every[task]);
        put_word(block, 40 + 12 * task, guest.deadline[task]);
    }
    seal(block);
}

/// Writes the check anew.
pub fn seal(block: &mut [u8; BLOCK]) {
    put_word(block, 508, 0);
    put_word(block, 508, sum(block).wrapping_neg());
}

pub(crate) fn sum(block: &[u8; BLOCK]) -> u32 {
    let words = block.as_chunks::<4>().0;
    words
        .iter()
        .fold(0, |sum, word| sum.wrapping_add(u32::from_le_bytes(*word)))
}

pub(crate) fn short(block: &[u8; BLOCK], at: usize) -> u16 {
    u16::from_le_bytes([block[at], block[at + 1]])
}

pub(crate) fn word(block: &[u8; BLOCK], at: usize) -> u32 {
    u32::from_le_bytes([block[at], block[at + 1], block[at + 2], block[at + 3]])
}

pub(crate) fn put_short(block: &mut [u8; BLOCK], at: usize, value: u16) {
    block[at..at + 2].copy_from_slice(&value.to_le_bytes());
}

pub(crate) fn put_word(block: &mut [u8; BLOCK], at: usize, value: u32) {
    block[at..at + 4].copy_from_slice(&value.to_le_bytes());
}
