//! A damaged plan file salvaged, as Rust has it.

use crate::{Fate, Refusal, Salvaged, exports};
use core::fmt;

/// What became of a block of a damaged plan file.
#[derive(Clone, Copy, Debug, PartialEq, Eq)]
pub enum BlockFate {
    /// Kept, with its new place.
    Kept(u32),
    /// Dropped, with the number of the first reason: 2, 3, 4, 5 or 6.
    Dropped(u32),
}

/// What became of each whole block of the file, in order; a tail is not listed.
#[derive(Clone, Copy, Debug, PartialEq, Eq)]
pub struct Fates {
    blocks: usize,
    fates: [Fate; 8],
}

/// What was salvaged.
#[derive(Debug, PartialEq, Eq)]
pub struct Salvage<'a> {
    /// The part of the output that was written: the kept blocks, which read as a plan.
    pub plan: &'a mut [u8],
    pub fates: Fates,
}

/// Why nothing was written. The fates are told all the same with 12, an output shorter than the kept blocks, and 20,
/// nothing kept; with 1, a file above 4,096 bytes, there are none.
#[derive(Clone, Copy, Debug, PartialEq, Eq)]
pub struct NotSalvaged {
    pub refusal: Refusal,
    pub fates: Fates,
}

/// Keeps each whole block of a damaged plan file that is right but for its place, and drops the others and any tail.
/// The kept blocks are written to the output in order, with their places and checks written anew and nothing else in
/// them changed; past them the output stays as it was.
///
/// ```
/// use coreshare::{BLOCK, BlockFate, Guest, Plan, salvage};
///
/// let nine = Guest::new(9, 8, 20, &[[10, 50, 50], [8, 100, 100]]);
/// let mut file = [0; 2 * BLOCK];
/// Guest::new(7, 2, 5, &[[1, 20, 20]]).write(0, &mut file)?;
/// nine.write(1, &mut file[BLOCK..])?;
/// let mut out = [0xFF; 600];
/// assert_eq!(salvage(&file, &mut out).unwrap_err().refusal.number, 12);
///
/// file[508] ^= 1;
/// let salvaged = salvage(&file, &mut out)?;
/// assert!(salvaged.fates.iter().eq([BlockFate::Dropped(2), BlockFate::Kept(0)]));
/// assert_eq!(salvaged.plan.len(), BLOCK);
/// assert_eq!(Plan::read(salvaged.plan)?, Plan::new(&[nine]));
/// assert_eq!(out[BLOCK..], [0xFF; 88]);
///
/// let nothing = salvage(&file[..BLOCK + 100], &mut out).unwrap_err();
/// assert_eq!(nothing.refusal.number, 20);
/// assert!(nothing.fates.iter().eq([BlockFate::Dropped(2)]));
/// # Ok::<(), coreshare::Refusal>(())
/// ```
pub fn salvage<'a>(file: &[u8], out: &'a mut [u8]) -> Result<Salvage<'a>, NotSalvaged> {
    let outcome = exports::salvage(file, out);
    let (refusal, fates) = (outcome.refusal, outcome.fates());
    match refusal.number {
        0 => Ok(Salvage {
            plan: &mut out[..outcome.written as usize],
            fates,
        }),
        _ => Err(NotSalvaged { refusal, fates }),
    }
}

impl Salvaged {
    /// What became of each whole block of the file.
    fn fates(&self) -> Fates {
        Fates {
            blocks: self.blocks as usize,
            fates: self.fates,
        }
    }
}

impl Fates {
    /// The blocks in order.
    pub fn iter(&self) -> impl Iterator<Item = BlockFate> {
        self.fates
            .into_iter()
            .take(self.blocks)
            .map(BlockFate::from)
    }
}

impl From<Fate> for BlockFate {
    fn from(fate: Fate) -> BlockFate {
        match fate.number {
            0 => BlockFate::Kept(fate.place),
            number => BlockFate::Dropped(number),
        }
    }
}

impl From<NotSalvaged> for Refusal {
    fn from(not: NotSalvaged) -> Refusal {
        not.refusal
    }
}

impl fmt::Display for NotSalvaged {
    fn fmt(&self, to: &mut fmt::Formatter<'_>) -> fmt::Result {
        self.refusal.fmt(to)
    }
}

impl core::error::Error for NotSalvaged {}
