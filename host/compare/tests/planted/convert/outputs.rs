//! Outputs written where they should not be, or not where they should.

use super::{converted, has_old, is_old, passes, result_of};
use reference::plan::{BLOCK, LONGEST_PLAN, Refusal};

/// The right conversion, and then something more done to the output, which is told the refusal.
fn then(plan: &[u8], out: &mut [u8], more: impl Fn(Refusal, &mut [u8])) -> Refusal {
    let refusal = converted(plan, out);
    more(refusal, out);
    refusal
}

#[test]
fn a_byte_past_the_plan_written() {
    assert!(!passes(|plan, out| then(plan, out, |refusal, out| {
        if refusal == Refusal::NONE
            && let Some(byte) = out.get_mut(plan.len())
        {
            *byte = 0;
        }
    })));
}

#[test]
fn zeros_written_past_the_plan() {
    assert!(!passes(|plan, out| then(plan, out, |refusal, out| {
        if refusal == Refusal::NONE {
            out[plan.len()..].fill(0);
        }
    })));
}

#[test]
fn zeros_written_up_to_the_longest_plan() {
    assert!(!passes(|plan, out| then(plan, out, |refusal, out| {
        let end = out.len().min(LONGEST_PLAN);
        if refusal == Refusal::NONE {
            out[plan.len()..end.max(plan.len())].fill(0);
        }
    })));
}

#[test]
fn blocks_that_fit_written_on_12() {
    assert!(!passes(|plan, out| then(plan, out, |refusal, out| {
        if refusal.number == 12 {
            let fit = out.len() - out.len() % BLOCK;
            out[..fit].copy_from_slice(&result_of(plan)[..fit]);
        }
    })));
}

#[test]
fn bytes_that_fit_written_on_12() {
    assert!(!passes(|plan, out| then(plan, out, |refusal, out| {
        if refusal.number == 12 {
            out.copy_from_slice(&result_of(plan)[..out.len()]);
        }
    })));
}

#[test]
fn blocks_before_the_refused_one_written() {
    assert!(!passes(|plan, out| then(plan, out, |refusal, out| {
        let before = BLOCK * refusal.place as usize;
        if before > 0 && out.len() >= before {
            converted(&plan[..before], out);
        }
    })));
}

#[test]
fn the_plan_copied_before_it_is_read() {
    assert!(!passes(|plan, out| {
        if let Some(room) = out.get_mut(..plan.len()) {
            room.copy_from_slice(plan);
        }
        converted(plan, out)
    }));
}

#[test]
fn zeros_written_on_a_refusal() {
    assert!(!passes(|plan, out| then(plan, out, |refusal, out| {
        if refusal != Refusal::NONE {
            out.fill(0);
        }
    })));
}

#[test]
fn a_byte_written_of_a_plan_that_is_refused_by_its_length() {
    assert!(!passes(|plan, out| then(plan, out, |refusal, out| {
        if let (1, Some(byte)) = (refusal.number, out.first_mut()) {
            *byte = 0;
        }
    })));
}

#[test]
fn an_output_that_is_one_too_short_let_through() {
    assert!(!passes(|plan, out| match converted(plan, out) {
        Refusal { number: 12, .. } if out.len() + 1 == plan.len() => {
            out.copy_from_slice(&result_of(plan)[..out.len()]);
            Refusal::NONE
        }
        right => right,
    }));
}

#[test]
fn an_output_that_the_last_check_does_not_fit_in_let_through() {
    assert!(!passes(|plan, out| match converted(plan, out) {
        Refusal { number: 12, .. } if out.len() + 4 >= plan.len() => Refusal::NONE,
        right => right,
    }));
}

#[test]
fn an_exact_output_refused() {
    assert!(!passes(|plan, out| {
        let room = if out.len() == plan.len() {
            0
        } else {
            out.len()
        };
        converted(plan, &mut out[..room])
    }));
}

#[test]
fn a_longer_output_refused() {
    assert!(!passes(|plan, out| {
        let room = if out.len() > plan.len() { 0 } else { out.len() };
        converted(plan, &mut out[..room])
    }));
}

#[test]
fn an_output_shorter_than_the_longest_plan_refused() {
    assert!(!passes(|plan, out| match converted(plan, &mut []) {
        Refusal { number: 12, .. } if out.len() < LONGEST_PLAN => Refusal::new(12, 0),
        _ => converted(plan, out),
    }));
}

#[test]
fn the_plan_written_to_the_outputs_end() {
    assert!(!passes(|plan, out| {
        let start = out.len().saturating_sub(plan.len());
        converted(plan, &mut out[start..])
    }));
}

#[test]
fn periodic_guests_not_written() {
    assert!(!passes(|plan, out| {
        let mut lent = out.to_vec();
        let refusal = converted(plan, &mut lent);
        for (at, block) in plan.chunks_exact(BLOCK).enumerate() {
            if refusal == Refusal::NONE && is_old(block) {
                let own = BLOCK * at..BLOCK * (at + 1);
                out[own.clone()].copy_from_slice(&lent[own]);
            }
        }
        refusal
    }));
}

#[test]
fn a_plan_without_deferrable_guests_not_written() {
    assert!(!passes(|plan, out| {
        let mut lent = out.to_vec();
        let refusal = converted(plan, &mut lent);
        if has_old(plan) {
            out.copy_from_slice(&lent);
        }
        refusal
    }));
}
