//! Prints what is salvaged of a damaged plan file.

use super::blocks;
use reference::salvage::{Fate, Salvaged};

/// The refusal, the bytes written, the list, and the output with what is behind it.
pub fn salvaged(of: &Salvaged, out: &[u8]) -> String {
    let each: Vec<String> = of.fates.iter().map(fate).collect();
    let list = format!("{} blocks [{}]", of.blocks, each.join(", "));
    let Salvaged {
        refusal, written, ..
    } = of;
    format!("{refusal:?} written {written} {list} {}", blocks(out))
}

fn fate(of: &Fate) -> String {
    format!("{}/{}", of.number, of.place)
}
