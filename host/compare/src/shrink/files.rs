//! Smaller plan files and outputs.

use super::{each, fewer_bytes, smaller_numbers, without_block};
use crate::call::Call;
use reference::plan::BLOCK;

/// A block fewer in the file, then fewer bytes in it, then a shorter output, each as this call of both.
pub fn smaller(file: &[u8], out: &[u8], call: fn(Vec<u8>, Vec<u8>) -> Call) -> Vec<Call> {
    let with_file = |file| call(file, out.to_vec());
    let fewer: Vec<Vec<u8>> = (0..file.len() / BLOCK)
        .map(|gone| without_block(file, gone))
        .collect();
    let mut calls = each(fewer, with_file);
    calls.extend(each(fewer_bytes(file), with_file));
    calls.extend(each(smaller_numbers(out.len() as u32), |room| {
        call(file.to_vec(), out[..room as usize].to_vec())
    }));
    calls
}
