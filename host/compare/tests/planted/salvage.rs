//! Wrong salvages of damaged plan files, each of which the comparison of files alone must find.

#[path = "salvage/answers.rs"]
mod answers;
#[path = "salvage/keeping.rs"]
mod keeping;
#[path = "salvage/lengths.rs"]
mod lengths;
#[path = "salvage/outputs.rs"]
mod outputs;
#[path = "salvage/writing.rs"]
mod writing;

use compare::salvage;
use compare::session::Session;
use compare::side::{REFERENCE, Side};
use reference::plan::{BLOCK, Guest, LONGEST_PLAN, Refusal};
use reference::salvage::{Fate, Salvaged, moved, passes as is_right, salvage as salvaged};

/// What small and some random files show of a side.
fn compared(side: Side) -> Session {
    let mut session = Session::new(side, 1);
    salvage::compare(&mut session);
    for _ in 0..10 {
        salvage::round(&mut session);
    }
    session
}

/// Whether nothing wrong is found with a salvage, all else being right.
fn passes(wrong: fn(&[u8], &mut [u8]) -> Salvaged) -> bool {
    let side = Side {
        salvage: wrong,
        ..REFERENCE
    };
    compared(side).found_nothing()
}

/// A block of a file: its bytes and those before it, the guests kept before it, and the number that is right, 0 for
/// kept.
struct Block<'a> {
    bytes: &'a [u8],
    before: &'a [u8],
    kept: &'a [Guest],
    number: u32,
}

impl Block<'_> {
    /// The guest of the block, as far as its id is looked at.
    fn guest(&self) -> Guest {
        Guest {
            id: word(self.bytes, 4),
            ..Guest::default()
        }
    }

    /// The position in the file.
    fn position(&self) -> usize {
        self.before.len() / BLOCK
    }
}

fn short(block: &[u8], at: usize) -> u16 {
    u16::from_le_bytes([block[at], block[at + 1]])
}

fn word(block: &[u8], at: usize) -> u32 {
    u32::from_le_bytes([block[at], block[at + 1], block[at + 2], block[at + 3]])
}

/// The outcome, but each block is dropped by another number, or kept with 0, and written with other bytes, being told
/// its new place.
fn by_blocks(
    file: &[u8],
    out: &mut [u8],
    number_of: impl Fn(&Block) -> u32,
    bytes_of: impl Fn(&Block, u16) -> Vec<u8>,
) -> Salvaged {
    let mut outcome = salvaged(file, &mut []);
    if outcome.refusal.number == 1 {
        return outcome;
    }
    let (mut guests, mut written) = (Vec::new(), Vec::new());
    for (at, bytes) in file.chunks_exact(BLOCK).enumerate() {
        let block = Block {
            bytes,
            before: &file[..BLOCK * at],
            kept: &guests,
            number: is_right(bytes, &guests).err().unwrap_or(0),
        };
        let place = guests.len() as u16;
        let number = number_of(&block);
        outcome.fates[at] = match number {
            0 => Fate::kept(place.into()),
            _ => Fate::dropped(number),
        };
        if number == 0 {
            written.extend(bytes_of(&block, place));
            let guest = block.guest();
            guests.push(guest);
        }
    }
    let number = match written.len() {
        0 => 20,
        kept if out.len() < kept => 12,
        _ => 0,
    };
    outcome.refusal = Refusal::new(number, 0);
    if number == 0 {
        out[..written.len()].copy_from_slice(&written);
        outcome.written = written.len() as u32;
    }
    outcome
}

/// The same with another number for a block alone.
fn by_numbers(file: &[u8], out: &mut [u8], number_of: impl Fn(&Block) -> u32) -> Salvaged {
    let right = |block: &Block, place| moved(block.bytes, place);
    by_blocks(file, out, number_of, right)
}

/// The same with another way to write a kept block alone.
fn by_bytes(file: &[u8], out: &mut [u8], bytes_of: impl Fn(&Block, u16) -> Vec<u8>) -> Salvaged {
    by_blocks(file, out, |block| block.number, bytes_of)
}

/// The right outcome with something in the answer changed.
fn with(file: &[u8], out: &mut [u8], change: impl Fn(&mut Salvaged)) -> Salvaged {
    let mut outcome = salvaged(file, out);
    change(&mut outcome);
    outcome
}

/// The bytes of the blocks that are kept.
fn kept_of(file: &[u8]) -> Vec<u8> {
    let mut out = vec![0; LONGEST_PLAN];
    let written = salvaged(file, &mut out).written;
    out.truncate(written as usize);
    out
}

#[test]
fn the_reference_is_right_about_files() {
    let session = compared(REFERENCE);
    assert!(session.found_nothing());
    for name in [salvage::READ, salvage::AGAIN, salvage::RIGHT] {
        assert!(session.held(name));
    }
}

#[test]
fn blocks_sorted_by_themselves_are_right() {
    assert!(passes(
        |file, out| by_numbers(file, out, |block| block.number)
    ));
    assert!(passes(|file, out| with(file, out, |_| ())));
}
