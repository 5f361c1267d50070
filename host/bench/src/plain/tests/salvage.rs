//! Salvages with the reference's types.

use super::refusal;
use crate::exports;
use reference::salvage::{Fate, Salvaged};

pub fn salvage(file: &[u8], out: &mut [u8]) -> Salvaged {
    let outcome = exports::salvage(file, out);
    Salvaged {
        refusal: refusal(outcome.refusal),
        written: outcome.written,
        blocks: outcome.blocks,
        fates: outcome.fates.map(|fate| Fate {
            number: fate.number,
            place: fate.place,
        }),
    }
}
