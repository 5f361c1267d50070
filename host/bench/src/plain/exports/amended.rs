//! A standing plan with an amendment sheet, behind the library's interface.
#![allow(improper_ctypes_definitions)] // slices, as the library takes them: a pointer and a length

use super::{Verdict, of_guest, of_plan, of_task, verdict};
use crate::amended::{Place, find, read};
use crate::{Plan, Refusal};

#[repr(C)]
pub struct Located {
    pub number: u32,
    pub place: u32,
    pub sheet: u32,
}

#[inline(never)]
pub extern "C" fn amended_find(plan: &[u8], sheet: &[u8], id: u32) -> Located {
    let (Refusal { number, place }, sheet) = match find(plan, sheet, id) {
        Ok(Place::Plan(place)) => (Refusal::new(0, place as u32), false),
        Ok(Place::Sheet(position)) => (Refusal::new(0, position as u32), true),
        Err(refused) => (refused.refusal, refused.of_sheet),
    };
    Located {
        number,
        place,
        sheet: sheet.into(),
    }
}

#[inline(never)]
pub extern "C" fn amended_guest_verdict(plan: &[u8], sheet: &[u8], id: u32) -> Verdict {
    judged(plan, sheet, |plan| plan.guest_verdict(id).map(of_guest))
}

#[inline(never)]
pub extern "C" fn amended_task_verdict(plan: &[u8], sheet: &[u8], id: u32, task: u32) -> Verdict {
    judged(plan, sheet, |plan| plan.task_verdict(id, task).map(of_task))
}

#[inline(never)]
pub extern "C" fn amended_accept(plan: &[u8], sheet: &[u8]) -> Verdict {
    judged(plan, sheet, |plan| plan.accepted().map(of_plan))
}

#[inline(never)]
pub extern "C" fn amended_smallest_capacity(plan: &[u8], sheet: &[u8], id: u32) -> Verdict {
    judged(plan, sheet, |plan| {
        plan.smallest_capacity(id).map(|ticks| (1, ticks))
    })
}

/// What is said of the amended plan, or the refusal of the two.
fn judged(
    plan: &[u8],
    sheet: &[u8],
    judge: impl Fn(&Plan) -> Result<(u32, u32), Refusal>,
) -> Verdict {
    let amended = read(plan, sheet).map_err(|refused| refused.refusal);
    verdict(amended.and_then(|plan| judge(&plan)))
}
