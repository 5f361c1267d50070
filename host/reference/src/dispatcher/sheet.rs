//! A sheet of releases: P5 of document 02, sentence by sentence.

#[cfg(test)]
mod tests;

use super::{Dispatcher, Released, in_range, release};
use crate::plan::Refusal;

/// The most pairs of one sheet.
pub const LONGEST_SHEET: usize = 256;

/// What a guest's id is multiplied by in a pair.
const GUEST: u64 = 65_536;

/// Guest id times 65,536 plus task number.
pub fn pair(id: u32, task: u16) -> u64 {
    u64::from(id) * GUEST + u64::from(task)
}

/// The guest part and the task number of a pair. The guest part has 48 bits.
pub fn parts(pair: u64) -> (u64, u32) {
    (pair / GUEST, (pair % GUEST) as u32)
}

/// The outcome is that of releasing the pairs one by one in order, with one answer for each: 0 for
/// taken or the refusal number. Answer places past the number of pairs stay as they were.
pub fn sheet(state: &Dispatcher, pairs: &[u64], answers: &mut [u32]) -> Released {
    let result = not_refused_whole(state, pairs.len(), answers.len());
    let mut outcome = Released {
        refusal: Refusal::of(&result),
        dispatcher: *state,
    };
    if result.is_err() {
        return outcome;
    }
    for (pair, answer) in pairs.iter().zip(answers) {
        let single = release_pair(&outcome.dispatcher, *pair);
        *answer = single.refusal.number;
        outcome.dispatcher = single.dispatcher;
    }
    outcome
}

/// Refusals: 14 first; then 15, more than 256 pairs; then 12, fewer answer places than pairs.
fn not_refused_whole(state: &Dispatcher, pairs: usize, answers: usize) -> Result<(), Refusal> {
    in_range(state)?;
    if pairs > LONGEST_SHEET {
        return Err(Refusal::new(15, 0));
    }
    if answers < pairs {
        return Err(Refusal::new(12, 0));
    }
    Ok(())
}

/// A guest part beyond 32 bits names no guest.
fn release_pair(state: &Dispatcher, pair: u64) -> Released {
    let (guest, task) = parts(pair);
    match u32::try_from(guest) {
        Ok(id) => release(state, id, task),
        Err(_) => Released {
            refusal: Refusal::new(7, 0),
            dispatcher: *state,
        },
    }
}
