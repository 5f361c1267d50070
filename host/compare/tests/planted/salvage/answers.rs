//! Wrong answers: refusals, the list, and the number of bytes written.

use super::{kept_of, passes, salvaged, with};
use reference::plan::{BLOCK, LONGEST_PLAN, Refusal};
use reference::salvage::{Fate, Salvaged};

/// The answer with another refusal and nothing written.
pub fn refused(outcome: &mut Salvaged, number: u32) {
    outcome.refusal = Refusal::new(number, 0);
    outcome.written = 0;
}

#[test]
fn the_tail_listed() {
    assert!(!passes(|file, out| with(file, out, |outcome| {
        if !file.len().is_multiple_of(BLOCK) && outcome.refusal.number != 1 {
            outcome.fates[outcome.blocks as usize] = Fate::dropped(1);
            outcome.blocks += 1;
        }
    })));
}

#[test]
fn the_tail_counted_as_a_block() {
    assert!(!passes(|file, out| with(file, out, |outcome| {
        if outcome.refusal.number != 1 {
            outcome.blocks = file.len().div_ceil(BLOCK) as u32;
        }
    })));
}

#[test]
fn nothing_kept_not_refused() {
    assert!(!passes(|file, out| with(file, out, |outcome| {
        if outcome.refusal.number == 20 {
            refused(outcome, 0);
        }
    })));
}

#[test]
fn an_empty_list_on_20() {
    assert!(!passes(|file, out| with(file, out, |outcome| {
        if outcome.refusal.number == 20 {
            (outcome.blocks, outcome.fates) = (0, [Fate::default(); 8]);
        }
    })));
}

#[test]
fn an_empty_list_on_12() {
    assert!(!passes(|file, out| with(file, out, |outcome| {
        if outcome.refusal.number == 12 {
            (outcome.blocks, outcome.fates) = (0, [Fate::default(); 8]);
        }
    })));
}

#[test]
fn blocks_that_do_not_fit_listed_as_dropped() {
    assert!(!passes(|file, out| {
        let room = (out.len() / BLOCK) as u32;
        with(file, out, |outcome| {
            for fate in outcome.fates.iter_mut().filter(|fate| fate.place >= room) {
                if outcome.refusal.number == 12 {
                    *fate = Fate::dropped(12);
                }
            }
        })
    }));
}

#[test]
fn bytes_written_told_on_12() {
    assert!(!passes(|file, out| with(file, out, |outcome| {
        if outcome.refusal.number == 12 {
            outcome.written = kept_of(file).len() as u32;
        }
    })));
}

#[test]
fn the_files_length_told_as_written_on_a_refusal() {
    assert!(!passes(|file, out| with(file, out, |outcome| {
        if outcome.refusal.number != 0 {
            outcome.written = file.len() as u32;
        }
    })));
}

#[test]
fn blocks_told_as_written_instead_of_bytes() {
    assert!(!passes(|file, out| with(file, out, |outcome| {
        outcome.written /= BLOCK as u32;
    })));
}

#[test]
fn an_output_shorter_than_the_file_refused() {
    assert!(!passes(|file, out| {
        let needed = file.len() - file.len() % BLOCK;
        match out.len() < needed && file.len() <= LONGEST_PLAN {
            true => with(file, &mut [], |outcome| refused(outcome, 12)),
            false => salvaged(file, out),
        }
    }));
}

#[test]
fn an_output_of_just_the_kept_blocks_refused() {
    assert!(!passes(|file, out| {
        match !out.is_empty() && out.len() == kept_of(file).len() {
            true => with(file, &mut [], |outcome| refused(outcome, 12)),
            false => salvaged(file, out),
        }
    }));
}

#[test]
fn an_output_shorter_than_a_block_refused_before_nothing_kept() {
    assert!(!passes(|file, out| {
        let short = out.len() < BLOCK;
        with(file, out, |outcome| {
            if outcome.refusal.number == 20 && short {
                refused(outcome, 12);
            }
        })
    }));
}

#[test]
fn a_place_told_with_a_refusal() {
    assert!(!passes(|file, out| with(file, out, |outcome| {
        if outcome.refusal.number == 12 {
            outcome.refusal.place = kept_of(file).len() as u32 / BLOCK as u32;
        }
    })));
}

#[test]
fn the_old_place_of_a_kept_block_told() {
    assert!(!passes(|file, out| with(file, out, |outcome| {
        for (fate, block) in outcome.fates.iter_mut().zip(file.chunks_exact(BLOCK)) {
            if fate.number == 0 && outcome.refusal.number != 1 {
                fate.place = u32::from(block[2]);
            }
        }
    })));
}

#[test]
fn the_position_of_a_block_told_as_its_new_place() {
    assert!(!passes(|file, out| with(file, out, |outcome| {
        for at in 0..outcome.blocks as usize {
            if outcome.fates[at].number == 0 {
                outcome.fates[at].place = at as u32;
            }
        }
    })));
}

#[test]
fn a_place_told_of_a_dropped_block() {
    assert!(!passes(|file, out| with(file, out, |outcome| {
        for (at, fate) in (0..).zip(&mut outcome.fates) {
            if fate.number != 0 {
                fate.place = at;
            }
        }
    })));
}

#[test]
fn something_told_past_the_blocks() {
    assert!(!passes(|file, out| with(file, out, |outcome| {
        outcome.fates[outcome.blocks as usize..].fill(Fate::dropped(2));
    })));
}
