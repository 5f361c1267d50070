//! Random plans with amendment sheets: good ones, and ones that are refused in every way.

use crate::blocks;
use crate::call::Amended;
use crate::plans::{self, Size, some_id};
use crate::random::Random;
use reference::plan::{BLOCK, MOST_GUESTS, Plan, block_of, blocks_of, seal};

/// Where a block has its place and its guest's id.
const PLACE: usize = 2;
const ID: usize = 4;

/// A plan and a sheet for it; now and then the plan is damaged, and every other time the sheet.
pub fn amended(random: &mut Random, size: Size) -> Amended {
    let standing = plans::clean(random, size);
    let mut sheet = sheet(random, size, &standing);
    if random.once_in(2) {
        spoil(random, &mut sheet, &standing);
    }
    if random.once_in(8) {
        spoil(random, &mut sheet, &standing);
    }
    let plan = match random.below(32) {
        0 => blocks::noise(random),
        1..=3 => blocks::damaged(random, &standing),
        _ => blocks_of(&standing),
    };
    Amended { plan, sheet }
}

/// New numbers for some of the guests, at least one, in any order.
fn sheet(random: &mut Random, size: Size, standing: &Plan) -> Vec<u8> {
    let mut places: Vec<usize> = (0..standing.listed().len()).collect();
    random.shuffle(&mut places);
    places.truncate(1 + random.below(places.len()));
    let share = random.from(20, 110) / standing.count;
    places
        .into_iter()
        .flat_map(|place| {
            let id = standing.guests[place].id;
            block_of(&plans::guest(random, size, id, share), place as u16)
        })
        .collect()
}

/// Makes a sheet of whole blocks one that is refused, or by luck not: a block is changed and its check made anew, or
/// bytes are damaged, or blocks come again, or the length is another.
fn spoil(random: &mut Random, sheet: &mut Vec<u8>, standing: &Plan) {
    let blocks = sheet.len() / BLOCK;
    if blocks == 0 || sheet.len() % BLOCK > 0 {
        return;
    }
    let start = BLOCK * random.below(blocks);
    match random.below(10) {
        0..=2 => *sheet = blocks::damaged_bytes(random, std::mem::take(sheet)),
        3 => put(sheet, start + ID, &random.edge().to_le_bytes()),
        4 => {
            let other = id_in(sheet, random.below(blocks));
            put(sheet, start + ID, &other.to_le_bytes());
        }
        5 => {
            let other = standing.guests[random.below(standing.listed().len())].id;
            put(sheet, start + ID, &other.to_le_bytes());
        }
        6 => {
            let place = [random.from(0, 8), random.edge(), 0x100 << random.below(8)];
            put(
                sheet,
                start + PLACE,
                &(random.pick(&place) as u16).to_le_bytes(),
            );
        }
        7 => *sheet = sheet[start..].repeat(random.below(MOST_GUESTS + 2)),
        8 => sheet.extend_from_within(start..start + BLOCK),
        _ => blocks::resize(random, sheet),
    }
}

/// Puts bytes into a block and makes its check anew.
fn put(sheet: &mut [u8], at: usize, value: &[u8]) {
    sheet[at..at + value.len()].copy_from_slice(value);
    seal(&mut sheet[at / BLOCK * BLOCK..][..BLOCK]);
}

/// The id in a block of the sheet.
fn id_in(sheet: &[u8], position: usize) -> u32 {
    let at = BLOCK * position + ID;
    u32::from_le_bytes([sheet[at], sheet[at + 1], sheet[at + 2], sheet[at + 3]])
}

/// The id of a guest to ask for: one that the sheet names, whether the plan has it or not, or one of the plan, or
/// now and then another.
pub fn asked(random: &mut Random, plan: &Plan, sheet: &[u8]) -> u32 {
    let blocks = sheet.len() / BLOCK;
    match blocks > 0 && random.once_in(3) {
        true => id_in(sheet, random.below(blocks)),
        false => some_id(random, plan),
    }
}
