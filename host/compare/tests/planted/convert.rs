//! Wrong conversions of old plans, each of which the comparison of old plans alone must find.

#[path = "convert/blocks.rs"]
mod blocks;
#[path = "convert/claims.rs"]
mod claims;
#[path = "convert/outputs.rs"]
mod outputs;
#[path = "convert/reading.rs"]
mod reading;
#[path = "convert/refusals.rs"]
mod refusals;

use compare::convert;
use compare::session::Session;
use compare::side::{REFERENCE, Side};
use reference::convert::convert as converted;
use reference::plan::{BLOCK, Refusal};

/// What small and some random plans show of a side.
fn compared(side: Side) -> Session {
    let mut session = Session::new(side, 1);
    session.scans = true;
    convert::compare(&mut session);
    for _ in 0..10 {
        convert::round(&mut session);
    }
    session
}

/// Whether nothing wrong is found with a conversion, all else being right.
fn passes(wrong: fn(&[u8], &mut [u8]) -> Refusal) -> bool {
    let side = Side {
        convert: wrong,
        ..REFERENCE
    };
    compared(side).found_nothing()
}

/// What a plan that is not refused becomes.
fn result_of(plan: &[u8]) -> Vec<u8> {
    let mut out = vec![0; plan.len()];
    converted(plan, &mut out);
    out
}

/// Whether a block is that of a Deferrable guest.
fn is_old(block: &[u8]) -> bool {
    block[22] == 1
}

/// Whether a plan has such a block.
fn has_old(plan: &[u8]) -> bool {
    plan.chunks_exact(BLOCK).any(is_old)
}

/// The right conversion, and where nothing is refused then something more done to each block, which is told the block
/// that it was.
fn and(plan: &[u8], out: &mut [u8], more: impl Fn(&[u8], &mut [u8])) -> Refusal {
    let refusal = converted(plan, out);
    if refusal == Refusal::NONE {
        for (old, new) in plan.chunks(BLOCK).zip(out.chunks_mut(BLOCK)) {
            more(old, new);
        }
    }
    refusal
}

#[test]
fn the_reference_is_right_about_old_plans() {
    let session = compared(REFERENCE);
    assert!(session.found_nothing());
    for name in [convert::READ, convert::AGAIN, convert::OWN] {
        assert!(session.held(name));
    }
    for name in [convert::GUESTS, convert::TASKS, convert::ACCEPTED] {
        assert!(session.held(name));
    }
}

#[test]
fn nothing_more_done_is_right() {
    assert!(passes(|plan, out| and(plan, out, |_, _| ())));
}
