//! A damaged plan file salvaged.

use crate::block::{BLOCK, carried_place, decode, put_short, seal, zeros_and_tasks};
use crate::{Guest, Refusal};

/// What became of a block: number 0 and its new place, or the number that it is dropped by.
#[repr(C)]
#[derive(Clone, Copy, Debug, Default, PartialEq, Eq)]
pub struct Fate {
    pub number: u32,
    pub place: u32,
}

/// What became of each block of a file.
#[derive(Clone, Copy, Debug, Default, PartialEq, Eq)]
pub struct List {
    pub blocks: u32,
    pub fates: [Fate; 8],
}

/// Writes the kept blocks and the list; the number of bytes written.
pub fn salvage(file: &[u8], out: &mut [u8], list: &mut List) -> Result<u32, Refusal> {
    *list = List::default();
    if file.len() > 8 * BLOCK {
        return Err(Refusal::new(1, 0));
    }
    let blocks = file.as_chunks::<BLOCK>().0;
    let kept = list.fill(blocks);
    let Some(out) = out.get_mut(..BLOCK * kept) else {
        return Err(Refusal::new(12, 0));
    };
    if kept == 0 {
        return Err(Refusal::new(20, 0));
    }
    let fates = list.fates.iter().zip(blocks);
    let right = fates.filter(|(fate, _)| fate.number == 0);
    for ((fate, block), to) in right.zip(out.as_chunks_mut::<BLOCK>().0) {
        *to = *block;
        put_short(to, 2, fate.place as u16);
        seal(to);
    }
    Ok((BLOCK * kept) as u32)
}

impl List {
    /// Notes of each block what becomes of it; the number of kept ones.
    fn fill(&mut self, blocks: &[[u8; BLOCK]]) -> usize {
        let (mut ids, mut kept) = ([0; 8], 0);
        self.blocks = blocks.len() as u32;
        for (fate, block) in self.fates.iter_mut().zip(blocks) {
            match look(block, &ids[..kept]) {
                Ok(guest) => {
                    fate.place = kept as u32;
                    ids[kept] = guest.id;
                    kept += 1;
                }
                Err(number) => fate.number = number,
            }
        }
        kept
    }
}

/// The guest of a block that is kept behind those with these ids, or the number that it is dropped by.
fn look(block: &[u8; BLOCK], ids: &[u32]) -> Result<Guest, u32> {
    let guest = decode(block, carried_place(block))?;
    if ids.contains(&guest.id) {
        return Err(4);
    }
    zeros_and_tasks(block, &guest)?;
    Ok(guest)
}
