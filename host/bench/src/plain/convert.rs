//! An old plan converted: its Deferrable guests made Periodic.

use crate::block::{BLOCK, put_short, read_into, seal};
use crate::{Plan, Refusal};

/// Writes the plan with byte 22 of each Deferrable guest's block zero, kind 1 if it has no marks, and its check anew.
pub fn convert(plan: &[u8], out: &mut [u8]) -> Result<(), Refusal> {
    let mut records = Plan::default();
    read_into(plan, &mut records)?;
    let Some(out) = out.get_mut(..plan.len()) else {
        return Err(Refusal::new(12, 0));
    };
    out.copy_from_slice(plan);
    let blocks = records.listed().iter().zip(out.as_chunks_mut::<BLOCK>().0);
    for (guest, block) in blocks.filter(|(guest, _)| guest.is_deferrable()) {
        if guest.marks == 0 {
            put_short(block, 0, 1);
        }
        block[22] = 0;
        seal(block);
    }
    Ok(())
}
