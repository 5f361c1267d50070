//! Outputs written where they should not be, or not where they should.

use super::{kept_of, passes, salvaged};
use reference::plan::BLOCK;
use reference::salvage::Salvaged;

/// The right outcome, and then something more done to the output, which is told how many bytes were written.
fn and(file: &[u8], out: &mut [u8], more: impl Fn(&Salvaged, &mut [u8])) -> Salvaged {
    let outcome = salvaged(file, out);
    more(&outcome, out);
    outcome
}

#[test]
fn a_byte_past_the_kept_blocks_written() {
    assert!(!passes(|file, out| and(file, out, |outcome, out| {
        let past = outcome.written as usize;
        if past > 0
            && let Some(byte) = out.get_mut(past)
        {
            *byte = 0;
        }
    })));
}

#[test]
fn zeros_written_past_the_kept_blocks() {
    assert!(!passes(|file, out| and(file, out, |outcome, out| {
        if outcome.refusal.number == 0 {
            out[outcome.written as usize..].fill(0);
        }
    })));
}

#[test]
fn the_tail_written() {
    assert!(!passes(|file, out| and(file, out, |outcome, out| {
        let tail = &file[file.len() - file.len() % BLOCK..];
        let past = outcome.written as usize;
        if outcome.refusal.number == 0 && out.len() >= past + tail.len() {
            out[past..past + tail.len()].copy_from_slice(tail);
        }
    })));
}

#[test]
fn blocks_that_fit_written_on_12() {
    assert!(!passes(|file, out| and(file, out, |outcome, out| {
        if outcome.refusal.number == 12 {
            let fit = out.len() - out.len() % BLOCK;
            out[..fit].copy_from_slice(&kept_of(file)[..fit]);
        }
    })));
}

#[test]
fn bytes_that_fit_written_on_12() {
    assert!(!passes(|file, out| and(file, out, |outcome, out| {
        if outcome.refusal.number == 12 {
            out.copy_from_slice(&kept_of(file)[..out.len()]);
        }
    })));
}

#[test]
fn zeros_written_on_20() {
    assert!(!passes(|file, out| and(file, out, |outcome, out| {
        if outcome.refusal.number == 20 {
            out.fill(0);
        }
    })));
}

#[test]
fn the_first_blocks_written_of_a_file_that_is_too_long() {
    assert!(!passes(|file, out| and(file, out, |outcome, out| {
        if outcome.refusal.number == 1 {
            salvaged(&file[..4_096], out);
        }
    })));
}

#[test]
fn kept_blocks_left_where_they_were() {
    assert!(!passes(|file, out| {
        let room = file.len() - file.len() % BLOCK;
        let outcome = salvaged(file, &mut out.to_vec());
        if outcome.refusal.number == 0 && out.len() >= room {
            let mut kept = kept_of(file);
            for (at, fate) in outcome.list().iter().enumerate() {
                if fate.number == 0 {
                    let block: Vec<u8> = kept.drain(..BLOCK).collect();
                    out[BLOCK * at..BLOCK * (at + 1)].copy_from_slice(&block);
                }
            }
        } else {
            salvaged(file, out);
        }
        outcome
    }));
}

#[test]
fn kept_blocks_written_to_the_outputs_end() {
    assert!(!passes(|file, out| {
        let start = out.len().saturating_sub(kept_of(file).len());
        salvaged(file, &mut out[start..])
    }));
}

#[test]
fn a_file_with_nothing_wrong_not_written() {
    assert!(!passes(|file, out| {
        let mut lent = out.to_vec();
        let outcome = salvaged(file, &mut lent);
        if kept_of(file) != file {
            out.copy_from_slice(&lent);
        }
        outcome
    }));
}
