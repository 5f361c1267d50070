//! The verdict of a standing plan with an amendment sheet.

use super::{Case, FILES, case, ours, plans, same};
use crate::inputs::{self, Amended};
use plain::block::BLOCK;
use std::hint::black_box;

pub fn all() -> Vec<Case> {
    vec![
        accept("amended-accept-1-of-8", inputs::amended(1)),
        accept("amended-accept-8-of-8", inputs::amended(8)),
        by_parts("amended-by-parts-1-of-8", inputs::amended(1)),
        by_parts("amended-by-parts-8-of-8", inputs::amended(8)),
        by_parts("amended-by-parts-plan-a", inputs::amended_plan_a()),
    ]
}

/// The verdict of the pair, the sheet's blocks coming in the order from last to first.
fn accept(name: &'static str, of: Amended) -> Case {
    let plan = of.plan;
    let sheet: Vec<u8> = of.sheet.rchunks(BLOCK).flatten().copied().collect();
    let (one, two) = ([plan.clone(), sheet.clone()], [plan.clone(), sheet.clone()]);
    assert_eq!(accepted(&plan, &sheet), Ok(true), "{name}");
    case(
        name,
        FILES,
        move || u64::from(ours::amended_accept(black_box(&plan), black_box(&sheet)).verdict),
        move || u64::from(same::amended_accept(black_box(&one[0]), black_box(&one[1])).verdict),
        move || u64::from(accepted(black_box(&two[0]), black_box(&two[1])) == Ok(true)),
    )
}

/// The verdict of the pair in one call of ours, beside its parts: both read, and one verdict of the amended records,
/// which are put together beforehand. In the place of the same interface stand the parts by our own calls, and by
/// reference stand the parts by plain Rust's.
fn by_parts(name: &'static str, of: Amended) -> Case {
    let Amended { plan, sheet } = of;
    let (one, two) = ([plan.clone(), sheet.clone()], [plan.clone(), sheet.clone()]);
    let (product, plain) = plans(&[&sheet[..], &plan[sheet.len()..]].concat());
    let mut lent = [plain::Plan::default(); 2];
    case(
        name,
        FILES,
        move || u64::from(ours::amended_accept(black_box(&plan), black_box(&sheet)).verdict),
        move || {
            for bytes in &one {
                black_box(ours::read(black_box(bytes)));
            }
            u64::from(ours::accept(black_box(&product)).verdict)
        },
        move || {
            for (bytes, records) in two.iter().zip(black_box(&mut lent)) {
                plain::block::read_into(black_box(bytes), records).expect("a plan");
            }
            u64::from(black_box(&plain).accepted() == Ok(true))
        },
    )
}

/// Whether plain Rust accepts the pair.
fn accepted(plan: &[u8], sheet: &[u8]) -> Result<bool, plain::Refusal> {
    let amended = plain::amended::read(plan, sheet).map_err(|refused| refused.refusal);
    amended?.accepted()
}
