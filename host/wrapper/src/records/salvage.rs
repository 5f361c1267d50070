//! The structs of a salvaged plan file.

use super::Refusal;

/// What became of a block of a damaged plan file; [`BlockFate`](crate::BlockFate) is the same as Rust has it.
#[repr(C)]
#[derive(Clone, Copy, Debug, Default, PartialEq, Eq)]
pub struct Fate {
    /// 0 if the block was kept, else the first reason that it was dropped by: 2, 3, 4, 5 or 6.
    pub number: u32,
    /// The new place of a kept block, else 0.
    pub place: u32,
}

/// What salvaging gives. A refused call has written nothing.
#[repr(C)]
#[derive(Clone, Copy, Debug, Default, PartialEq, Eq)]
pub struct Salvaged {
    pub refusal: Refusal,
    /// The bytes written, 512 for each kept block.
    pub written: u32,
    /// The whole blocks of the file; 0 with refusal 1.
    pub blocks: u32,
    /// What became of each of them, with refusals 12 and 20 too; zero past them.
    pub fates: [Fate; 8],
}
