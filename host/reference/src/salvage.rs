//! Salvaging a damaged plan file: P11 of document 02, sentence by sentence.

#[cfg(test)]
mod tests;

use crate::plan::{
    BLOCK, Guest, LONGEST_PLAN, MOST_GUESTS, PLACE, Refusal, carried_place, put_short, read_block,
    seal,
};

/// What the list says of an input block: number 0 and its new place if it is kept, else the number of the first reason
/// that it is dropped by, and place 0.
#[derive(Clone, Copy, Debug, Default, PartialEq, Eq)]
pub struct Fate {
    pub number: u32,
    pub place: u32,
}

/// The answer: how many bytes were written, and the list of the input blocks; fates past their number are zero.
#[derive(Clone, Copy, Debug, Default, PartialEq, Eq)]
pub struct Salvaged {
    pub refusal: Refusal,
    pub written: u32,
    pub blocks: u32,
    pub fates: [Fate; MOST_GUESTS],
}

impl Fate {
    pub const fn kept(place: u32) -> Fate {
        Fate { number: 0, place }
    }

    pub const fn dropped(number: u32) -> Fate {
        Fate { number, place: 0 }
    }
}

impl Salvaged {
    /// Nothing is written, and nothing is listed.
    const fn refused(number: u32) -> Salvaged {
        Salvaged {
            refusal: Refusal::new(number, 0),
            written: 0,
            blocks: 0,
            fates: [Fate::kept(0); MOST_GUESTS],
        }
    }

    /// The fates of the input blocks.
    pub fn list(&self) -> &[Fate] {
        &self.fates[..self.blocks as usize]
    }
}

/// From a file of 0 to 4,096 bytes; above that it is 1. The output is written only where nothing is refused, and past
/// the kept blocks it stays.
pub fn salvage(file: &[u8], out: &mut [u8]) -> Salvaged {
    if file.len() > LONGEST_PLAN {
        return Salvaged::refused(1);
    }
    let (list, kept) = sorted(file);
    let mut outcome = Salvaged::refused(refusal_of(kept.len(), out.len()));
    outcome.blocks = list.len() as u32;
    outcome.fates[..list.len()].copy_from_slice(&list);
    if outcome.refusal == Refusal::NONE {
        out[..kept.len()].copy_from_slice(&kept);
        outcome.written = kept.len() as u32;
    }
    outcome
}

/// 12 for an output shorter than the kept blocks; 20, nothing kept.
fn refusal_of(kept: usize, room: usize) -> u32 {
    if room < kept {
        return 12;
    }
    match kept {
        0 => 20,
        _ => 0,
    }
}

/// Each whole block is kept or dropped, and a tail is not listed; kept blocks move up in order.
fn sorted(file: &[u8]) -> (Vec<Fate>, Vec<u8>) {
    let (mut list, mut guests, mut kept) = (Vec::new(), Vec::new(), Vec::new());
    for block in file.chunks_exact(BLOCK) {
        match passes(block, &guests) {
            Ok(guest) => {
                let place = guests.len() as u16;
                list.push(Fate::kept(place.into()));
                kept.extend(moved(block, place));
                guests.push(guest);
            }
            Err(number) => list.push(Fate::dropped(number)),
        }
    }
    (list, kept)
}

/// The guest of a block that passes 2, all of 3 but the place, 4, 5 and 6, taking ids seen in kept blocks only; else
/// the first reason. A block that is read at the place it carries is not refused by its place.
pub fn passes(block: &[u8], kept: &[Guest]) -> Result<Guest, u32> {
    read_block(block, carried_place(block), kept)
}

/// The block with its place and check written anew; nothing else in it changes.
pub fn moved(block: &[u8], place: u16) -> Vec<u8> {
    let mut block = block.to_vec();
    put_short(&mut block, PLACE, place);
    seal(&mut block);
    block
}
