//! The export that salvages a damaged plan file.
#![allow(unsafe_code)]

use crate::Salvaged;

// SAFETY: this is the signature of `coreshare.h`, and the structs have its layout.
unsafe extern "C" {
    fn cs_salvage(file: *const u8, file_len: usize, out: *mut u8, out_len: usize) -> Salvaged;
}

/// Writes the blocks of a damaged plan file that are kept to the output. Refusals: 1, 12, 20.
/// A block is dropped by 2, 3, 4, 5 or 6.
pub fn salvage(file: &[u8], out: &mut [u8]) -> Salvaged {
    let (out, room) = (out.as_mut_ptr(), out.len());
    // SAFETY: the file is readable and the output ours alone, each for its length during the call; they do not
    // overlap, and nothing keeps them.
    unsafe { cs_salvage(file.as_ptr(), file.len(), out, room) }
}
