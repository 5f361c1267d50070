//! A standing plan with an amendment sheet.

use crate::block::{BLOCK, carried_place, decode, read_into, zeros_and_tasks};
use crate::{Guest, Plan, Refusal};

/// A refusal of the plan or of the sheet.
#[derive(Clone, Copy, Debug, PartialEq, Eq)]
pub struct Refused {
    pub refusal: Refusal,
    pub of_sheet: bool,
}

/// Where a block stands.
#[derive(Clone, Copy, Debug, PartialEq, Eq)]
pub enum Place {
    Plan(usize),
    Sheet(usize),
}

/// The guests of a sheet with the places they carry.
type Amendments = [(Guest, usize)];

/// Reads the plan with the sheet's guests in place of its own.
pub fn read(plan: &[u8], sheet: &[u8]) -> Result<Plan, Refused> {
    let mut amended = Plan::default();
    let mut room = [(Guest::default(), 0); 8];
    for (guest, place) in read_both(plan, sheet, &mut amended, &mut room)? {
        amended.guests[*place] = *guest;
    }
    Ok(amended)
}

pub fn find(plan: &[u8], sheet: &[u8], id: u32) -> Result<Place, Refused> {
    let mut standing = Plan::default();
    let mut room = [(Guest::default(), 0); 8];
    let amendments = read_both(plan, sheet, &mut standing, &mut room)?;
    if let Some(position) = amendments.iter().position(|(guest, _)| guest.id == id) {
        return Ok(Place::Sheet(position));
    }
    standing.place_of(id).map(Place::Plan).map_err(of_plan)
}

/// Reads both into the caller's records; gives the sheet's, each of which is at its guest's place.
fn read_both<'a>(
    plan: &[u8],
    sheet: &[u8],
    standing: &mut Plan,
    room: &'a mut [(Guest, usize); 8],
) -> Result<&'a Amendments, Refused> {
    read_into(plan, standing).map_err(of_plan)?;
    let amendments = read_sheet(sheet, room).map_err(of_sheet)?;
    for (position, (guest, place)) in amendments.iter().enumerate() {
        if standing.place_of(guest.id) != Ok(*place) {
            return Err(of_sheet(Refusal::new(16, position as u32)));
        }
    }
    Ok(amendments)
}

fn read_sheet<'a>(
    sheet: &[u8],
    room: &'a mut [(Guest, usize); 8],
) -> Result<&'a Amendments, Refusal> {
    let (blocks, rest) = sheet.as_chunks::<BLOCK>();
    if !rest.is_empty() || !(1..=8).contains(&blocks.len()) {
        return Err(Refusal::new(1, 0));
    }
    for (position, block) in blocks.iter().enumerate() {
        let refuse = |number| Refusal::new(number, position as u32);
        let place = carried_place(block);
        let guest = decode(block, place).map_err(refuse)?;
        if room[..position].iter().any(|(one, _)| one.id == guest.id) {
            return Err(refuse(4));
        }
        zeros_and_tasks(block, &guest).map_err(refuse)?;
        room[position] = (guest, place);
    }
    Ok(&room[..blocks.len()])
}

/// A refusal that is the plan's.
fn of_plan(refusal: Refusal) -> Refused {
    Refused {
        refusal,
        of_sheet: false,
    }
}

fn of_sheet(refusal: Refusal) -> Refused {
    Refused {
        refusal,
        of_sheet: true,
    }
}
