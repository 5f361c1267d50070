//! Sides that are at odds with themselves over a converted plan: what is claimed of it is not so, and that is found by
//! what the side itself writes, reads and judges.

use super::{compared, converted, has_old};
use crate::marks::put_short;
use compare::convert::{ACCEPTED, AGAIN, GUESTS, OWN, READ, TASKS};
use compare::side::{REFERENCE, Side};
use reference::plan::{BLOCK, Plan, Refusal, read, seal};
use reference::verdict::{NO, Verdict, YES, accept, guest_verdict, task_verdict};

/// Whether a claim is found not to be so of a side.
fn breaks(claim: &str, side: Side) -> bool {
    !compared(side).held(claim)
}

/// The verdict, changed where it is of a plan without Deferrable guests and has a response.
fn of_periodic(plan: &Plan, right: Verdict, change: fn(&mut Verdict)) -> Verdict {
    let mut verdict = right;
    if verdict.ticks > 0 && !plan.has_deferrable() {
        change(&mut verdict);
    }
    verdict
}

#[test]
fn a_converted_plan_that_reads_as_another() {
    assert!(breaks(
        READ,
        Side {
            read: |bytes| {
                let mut outcome = read(bytes);
                for guest in &mut outcome.plan.guests {
                    guest.charge = 0;
                }
                outcome
            },
            ..REFERENCE
        }
    ));
}

#[test]
fn a_converted_plan_that_does_not_read() {
    assert!(breaks(
        READ,
        Side {
            convert: |plan, out| {
                let refusal = converted(plan, out);
                if refusal == Refusal::NONE {
                    out[508] ^= 1;
                }
                refusal
            },
            ..REFERENCE
        }
    ));
}

#[test]
fn a_converted_plan_that_is_converted_back() {
    assert!(breaks(
        AGAIN,
        Side {
            convert: |plan, out| {
                let refusal = converted(plan, out);
                let blocks = plan.len() / BLOCK;
                for block in out.chunks_exact_mut(BLOCK).take(blocks) {
                    if refusal == Refusal::NONE && !has_old(plan) {
                        put_short(block, 0, 2);
                        block[22] = 1;
                        seal(block);
                    }
                }
                refusal
            },
            ..REFERENCE
        }
    ));
}

#[test]
fn a_converted_plan_that_is_refused() {
    assert!(breaks(
        AGAIN,
        Side {
            convert: |plan, out| match has_old(plan) {
                true => converted(plan, out),
                false => Refusal::new(21, 0),
            },
            ..REFERENCE
        }
    ));
}

#[test]
fn a_periodic_plan_that_comes_back_as_another() {
    assert!(breaks(
        OWN,
        Side {
            convert: |plan, out| {
                let refusal = converted(plan, out);
                if refusal == Refusal::NONE && !has_old(plan) {
                    put_short(out, 0, 2);
                }
                refusal
            },
            ..REFERENCE
        }
    ));
}

#[test]
fn a_guest_whose_response_grows() {
    assert!(breaks(
        GUESTS,
        Side {
            guest_verdict: |plan, id| {
                of_periodic(plan, guest_verdict(plan, id), |verdict| verdict.ticks += 1)
            },
            ..REFERENCE
        }
    ));
}

#[test]
fn a_guest_that_becomes_unfit() {
    assert!(breaks(
        GUESTS,
        Side {
            guest_verdict: |plan, id| {
                of_periodic(plan, guest_verdict(plan, id), |verdict| {
                    (verdict.verdict, verdict.ticks) = (NO, 0);
                })
            },
            ..REFERENCE
        }
    ));
}

#[test]
fn a_task_whose_response_grows() {
    assert!(breaks(
        TASKS,
        Side {
            task_verdict: |plan, id, task| {
                of_periodic(plan, task_verdict(plan, id, task), |verdict| {
                    verdict.ticks += 1;
                })
            },
            ..REFERENCE
        }
    ));
}

#[test]
fn a_task_that_becomes_unmet() {
    assert!(breaks(
        TASKS,
        Side {
            task_verdict: |plan, id, task| {
                of_periodic(plan, task_verdict(plan, id, task), |verdict| {
                    verdict.verdict = NO;
                })
            },
            ..REFERENCE
        }
    ));
}

#[test]
fn an_unmet_task_that_loses_its_response() {
    assert!(breaks(
        TASKS,
        Side {
            task_verdict: |plan, id, task| {
                of_periodic(plan, task_verdict(plan, id, task), |verdict| {
                    if verdict.verdict != YES {
                        verdict.ticks = 0;
                    }
                })
            },
            ..REFERENCE
        }
    ));
}

#[test]
fn a_plan_that_is_accepted_no_more() {
    assert!(breaks(
        ACCEPTED,
        Side {
            accept: |plan| match accept(plan) {
                right if right.verdict == YES && !plan.has_deferrable() => Verdict {
                    verdict: NO,
                    ..right
                },
                right => right,
            },
            ..REFERENCE
        }
    ));
}
