//! Smaller plans with amendment sheets.

use super::{fewer_bytes, without_block};
use crate::call::Amended;
use reference::plan::BLOCK;

/// A block fewer in the sheet, then fewer bytes in the sheet, then in the plan.
pub fn smaller(of: &Amended) -> Vec<Amended> {
    let mut sheets: Vec<Vec<u8>> = (0..of.sheet.len() / BLOCK)
        .map(|gone| without_block(&of.sheet, gone))
        .collect();
    sheets.extend(fewer_bytes(&of.sheet));
    let with_sheet = |sheet| Amended {
        sheet,
        ..of.clone()
    };
    let with_plan = |plan| Amended { plan, ..of.clone() };
    let plans = fewer_bytes(&of.plan).into_iter().map(with_plan);
    sheets.into_iter().map(with_sheet).chain(plans).collect()
}
