//! Trying amendments before signing: P6 of document 02, sentence by sentence.

#[cfg(test)]
mod tests;

use crate::plan::{BLOCK, Guest, Plan, Refusal, carried_place, length_in_range, read, read_block};
use crate::verdict::{self, Verdict};

/// The companion answer. With number 0 the block stands at this place of the sheet, if `sheet` is 1,
/// or of the plan; else it is a refusal, which is the sheet's if `sheet` is 1.
#[derive(Clone, Copy, Debug, Default, PartialEq, Eq)]
pub struct Located {
    pub number: u32,
    pub place: u32,
    pub sheet: u32,
}

impl Located {
    const fn in_plan(number: u32, place: u32) -> Located {
        Located {
            number,
            place,
            sheet: 0,
        }
    }

    const fn in_sheet(number: u32, place: u32) -> Located {
        Located {
            number,
            place,
            sheet: 1,
        }
    }

    fn refusal(self) -> Refusal {
        Refusal::new(self.number, self.place)
    }
}

/// Says plan or sheet, or the refusal.
pub fn find(plan: &[u8], sheet: &[u8], id: u32) -> Located {
    locate(plan, sheet, id).unwrap_or_else(|refused| refused)
}

/// The sheet's block if it has one for that guest, otherwise the plan's; on a refusal an empty part.
pub fn found<'a>(plan: &'a [u8], sheet: &'a [u8], id: u32) -> &'a [u8] {
    let Ok(located) = locate(plan, sheet, id) else {
        return &[];
    };
    let lent = if located.sheet == 1 { sheet } else { plan };
    let start = BLOCK * located.place as usize;
    &lent[start..start + BLOCK]
}

/// Verdict of a guest of the plan with the sheet's blocks replaced: the pair's refusals, then 7.
pub fn guest_verdict(plan: &[u8], sheet: &[u8], id: u32) -> Verdict {
    of_replaced(plan, sheet, |plan| verdict::guest_verdict(plan, id))
}

/// Verdict of a task of that plan: the pair's refusals, then 7, then 8.
pub fn task_verdict(plan: &[u8], sheet: &[u8], id: u32, task: u32) -> Verdict {
    of_replaced(plan, sheet, |plan| verdict::task_verdict(plan, id, task))
}

/// Acceptance of that plan: the pair's refusals.
pub fn accept(plan: &[u8], sheet: &[u8]) -> Verdict {
    of_replaced(plan, sheet, verdict::accept)
}

/// Smallest capacity in that plan: the pair's refusals, then 7, then 11.
pub fn smallest_capacity(plan: &[u8], sheet: &[u8], id: u32) -> Verdict {
    of_replaced(plan, sheet, |plan| verdict::smallest_capacity(plan, id))
}

/// The bytes of the plan with the sheet's blocks replaced, each at its guest's place; or the pair's refusal.
pub fn replaced(plan: &[u8], sheet: &[u8]) -> Result<Vec<u8>, Located> {
    well_formed(plan, sheet)?;
    let mut bytes = plan.to_vec();
    for block in sheet.chunks(BLOCK) {
        let start = BLOCK * usize::from(carried_place(block));
        bytes[start..start + BLOCK].copy_from_slice(block);
    }
    Ok(bytes)
}

/// What the pair gives equals what the plan with those blocks replaced gives.
fn of_replaced(plan: &[u8], sheet: &[u8], judge: impl Fn(&Plan) -> Verdict) -> Verdict {
    match replaced(plan, sheet) {
        Ok(bytes) => judge(&read(&bytes).plan),
        Err(refused) => Verdict::of(Err(refused.refusal())),
    }
}

/// The pair's refusals, then 7; the sheet is looked at first.
fn locate(plan: &[u8], sheet: &[u8], id: u32) -> Result<Located, Located> {
    let (standing, amendments) = well_formed(plan, sheet)?;
    if let Some(position) = amendments.iter().position(|guest| guest.id == id) {
        return Ok(Located::in_sheet(0, position as u32));
    }
    match standing.place_of(id) {
        Ok(place) => Ok(Located::in_plan(0, place as u32)),
        Err(refusal) => Err(Located::in_plan(refusal.number, refusal.place)),
    }
}

/// Refusals: the plan's own first, then the sheet's by 1 to 6, then 16. The records of both.
fn well_formed(plan: &[u8], sheet: &[u8]) -> Result<(Plan, Vec<Guest>), Located> {
    let standing = read(plan);
    if standing.refusal != Refusal::NONE {
        let Refusal { number, place } = standing.refusal;
        return Err(Located::in_plan(number, place));
    }
    let of_the_sheet = |Refusal { number, place }| Located::in_sheet(number, place);
    let amendments = read_sheet(sheet).map_err(of_the_sheet)?;
    belongs(&standing.plan, sheet, &amendments).map_err(of_the_sheet)?;
    Ok((standing.plan, amendments))
}

/// The sheet's by 1, then block by block 2, 3 (kind only), 4, 5, 6, with the position in the sheet. A block
/// that is read at the place it carries is refused as 3 by its kind only; an id is already seen if an earlier
/// block of the sheet has it.
fn read_sheet(sheet: &[u8]) -> Result<Vec<Guest>, Refusal> {
    length_in_range(sheet)?;
    let mut amendments = Vec::new();
    for (position, block) in (0..).zip(sheet.chunks(BLOCK)) {
        match read_block(block, carried_place(block), &amendments) {
            Ok(guest) => amendments.push(guest),
            Err(number) => return Err(Refusal::new(number, position)),
        }
    }
    Ok(amendments)
}

/// Then 16, the first sheet block whose id is not in the plan or whose place is not its guest's.
fn belongs(standing: &Plan, sheet: &[u8], amendments: &[Guest]) -> Result<(), Refusal> {
    for (position, (block, guest)) in (0..).zip(sheet.chunks(BLOCK).zip(amendments)) {
        if standing.place_of(guest.id) != Ok(usize::from(carried_place(block))) {
            return Err(Refusal::new(16, position));
        }
    }
    Ok(())
}
