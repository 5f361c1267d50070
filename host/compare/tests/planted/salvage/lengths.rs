//! Files refused by their length wrongly, or not.

use super::answers::refused;
use super::{passes, salvaged, with};
use reference::plan::{BLOCK, LONGEST_PLAN};

#[test]
fn an_empty_file_not_refused() {
    assert!(!passes(|file, out| with(file, out, |outcome| {
        if file.is_empty() {
            refused(outcome, 0);
        }
    })));
}

#[test]
fn an_empty_file_refused_by_its_length() {
    assert!(!passes(|file, out| with(file, out, |outcome| {
        if file.is_empty() {
            refused(outcome, 1);
        }
    })));
}

#[test]
fn a_file_shorter_than_a_block_refused_by_its_length() {
    assert!(!passes(|file, out| with(file, out, |outcome| {
        if (1..BLOCK).contains(&file.len()) {
            refused(outcome, 1);
        }
    })));
}

#[test]
fn a_file_with_a_tail_refused() {
    assert!(!passes(|file, out| {
        match file.len().is_multiple_of(BLOCK) || file.len() < BLOCK {
            true => salvaged(file, out),
            false => salvaged(&[0; LONGEST_PLAN + 1], out),
        }
    }));
}

#[test]
fn a_byte_more_than_4096_taken_as_a_tail() {
    assert!(!passes(|file, out| match file.len() {
        4_097 => salvaged(&file[..4_096], out),
        _ => salvaged(file, out),
    }));
}

#[test]
fn any_file_cut_to_4096() {
    assert!(!passes(|file, out| {
        salvaged(&file[..file.len().min(LONGEST_PLAN)], out)
    }));
}

#[test]
fn a_length_cut_to_16_bits() {
    assert!(!passes(|file, out| {
        salvaged(&file[..usize::from(file.len() as u16)], out)
    }));
}

#[test]
fn a_file_of_4096_refused() {
    assert!(!passes(|file, out| match file.len() {
        LONGEST_PLAN => salvaged(&[0; LONGEST_PLAN + 1], out),
        _ => salvaged(file, out),
    }));
}

#[test]
fn the_first_blocks_listed_of_a_file_that_is_too_long() {
    assert!(!passes(|file, out| with(file, out, |outcome| {
        if outcome.refusal.number == 1 {
            let first = salvaged(&file[..LONGEST_PLAN], &mut []);
            (outcome.blocks, outcome.fates) = (first.blocks, first.fates);
        }
    })));
}

#[test]
fn an_output_that_is_too_short_refused_before_the_files_length() {
    assert!(!passes(|file, out| {
        let short = out.len() < BLOCK;
        with(file, out, |outcome| {
            if outcome.refusal.number == 1 && short {
                refused(outcome, 12);
            }
        })
    }));
}
