//! Old plans converted: P13 of document 02, sentence by sentence.

#[cfg(test)]
mod tests;

use crate::plan::{
    BLOCK, DEFERRABLE, KIND, MARKS, PERIODIC, PLAIN, Refusal, SERVER, put_short, read, seal, short,
};

/// Turns every Deferrable guest of a plan into a Periodic one. The output is written only where nothing is refused, and
/// past the plan's length it stays.
pub fn convert(plan: &[u8], out: &mut [u8]) -> Refusal {
    let refusal = refusal_of(plan, out.len());
    if refusal == Refusal::NONE {
        for (block, room) in plan.chunks(BLOCK).zip(out.chunks_mut(BLOCK)) {
            room.copy_from_slice(block);
            if block[SERVER] == DEFERRABLE {
                make_periodic(room);
            }
        }
    }
    refusal
}

/// The reading order, then 12, output shorter than the plan.
fn refusal_of(plan: &[u8], room: usize) -> Refusal {
    match read(plan).refusal {
        Refusal::NONE if room < plan.len() => Refusal::new(12, 0),
        refusal => refusal,
    }
}

/// The same numbers in the one form that P8 gives: kind 1 when all marks are zero, else kind 2 as it was; the check is
/// written anew, and nothing else changes.
fn make_periodic(block: &mut [u8]) {
    if short(block, MARKS) == 0 {
        put_short(block, KIND, PLAIN);
    }
    block[SERVER] = PERIODIC;
    seal(block);
}
