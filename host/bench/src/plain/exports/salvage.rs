//! The salvage of a damaged plan file, behind the library's interface.
#![allow(improper_ctypes_definitions)] // slices, as the library takes them: a pointer and a length

use crate::Refusal;
use crate::salvage::{self, Fate, List};

#[repr(C)]
pub struct Salvaged {
    pub refusal: Refusal,
    pub written: u32,
    pub blocks: u32,
    pub fates: [Fate; 8],
}

#[inline(never)]
pub extern "C" fn salvage(file: &[u8], out: &mut [u8]) -> Salvaged {
    let mut list = List::default();
    let result = salvage::salvage(file, out, &mut list);
    Salvaged {
        refusal: result.err().unwrap_or_default(),
        written: result.unwrap_or(0),
        blocks: list.blocks,
        fates: list.fates,
    }
}
