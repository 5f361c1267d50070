//! An old plan converted, as Rust has it.

use crate::{Refusal, exports};

/// Writes an old plan to the output with every Deferrable guest made a Periodic one with the same numbers, and gives
/// what was written; past it the output stays as it was. Nothing else changes, and a plan without Deferrable guests
/// comes out as its own bytes. What is written reads as a plan, in which every guest that was fitted and every task
/// that was met stays so, with a response no larger. It is refused as reading the plan is, and then by 12 if the
/// output is shorter than the plan.
///
/// ```
/// use coreshare::{Dispatcher, GuestVerdict, Plan, TaskVerdict, convert};
///
/// let card = include_bytes!(concat!(env!("CARGO_MANIFEST_DIR"), "/../../examples/old-card.plan"));
/// let old = Plan::read(card)?;
/// assert_eq!(old.guest_verdict(9), Ok(GuestVerdict::Fitted(16)));
/// assert_eq!(old.task_verdict(9, 2), Ok(TaskVerdict::Met(82)));
/// assert_eq!(Dispatcher::fresh(&old).unwrap_err().number, 23);
///
/// let mut out = [0xFF; 1_100];
/// let plan = Plan::read(convert(card, &mut out)?)?;
/// assert_eq!(plan.guest_verdict(9), Ok(GuestVerdict::Fitted(14)));
/// assert_eq!(plan.task_verdict(9, 2), Ok(TaskVerdict::Met(80)));
/// assert!(Dispatcher::fresh(&plan).is_ok());
/// assert_eq!(out[1_024..], [0xFF; 76]);
///
/// assert_eq!(convert(card, &mut out[..1_000]).unwrap_err().number, 12);
/// assert_eq!(convert(&card[..1_000], &mut out).unwrap_err().number, 1);
/// # Ok::<(), coreshare::Refusal>(())
/// ```
pub fn convert<'a>(plan: &[u8], out: &'a mut [u8]) -> Result<&'a [u8], Refusal> {
    exports::convert(plan, out).or(())?;
    Ok(&out[..plan.len()])
}
