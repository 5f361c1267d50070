//! Log blocks written wrongly.

use super::compared;
use compare::side::{REFERENCE, Side};
use reference::log::{LogEntries, write};
use reference::plan::{BLOCK, Refusal, seal};

/// Whether nothing wrong is found with a writer of log blocks, all else being right.
fn passes(wrong: fn(&LogEntries, &mut [u8]) -> Refusal) -> bool {
    let side = Side {
        write_log: wrong,
        ..REFERENCE
    };
    compared(side).found_nothing()
}

/// The number that jobs are refused by in a buffer that is long enough.
fn number_of(jobs: &LogEntries) -> u32 {
    write(jobs, &mut [0; BLOCK]).number
}

#[test]
fn jobs_looked_at_before_the_buffer() {
    assert!(!passes(|jobs, buffer| match number_of(jobs) {
        0 => write(jobs, buffer),
        number => Refusal::new(number, 0),
    }));
}

#[test]
fn a_byte_past_512_written() {
    assert!(!passes(|jobs, buffer| {
        let refusal = write(jobs, buffer);
        if let (0, Some(past)) = (refusal.number, buffer.get_mut(BLOCK)) {
            *past = 0;
        }
        refusal
    }));
}

#[test]
fn a_block_written_to_the_buffers_end() {
    assert!(!passes(|jobs, buffer| {
        let start = buffer.len().saturating_sub(BLOCK);
        write(jobs, &mut buffer[start..])
    }));
}

#[test]
fn entries_past_the_count_written() {
    assert!(!passes(|jobs, buffer| {
        let refusal = write(jobs, buffer);
        if refusal.number == 0 {
            for (at, entry) in jobs.entries.iter().enumerate() {
                let words = [entry.guest, entry.task, entry.age].map(u32::to_le_bytes);
                buffer[8 + 12 * at..20 + 12 * at].copy_from_slice(words.as_flattened());
            }
            seal(&mut buffer[..BLOCK]);
        }
        refusal
    }));
}

#[test]
fn bytes_past_the_entries_left_as_they_were() {
    assert!(!passes(|jobs, buffer| {
        let before = buffer.to_vec();
        let refusal = write(jobs, buffer);
        if refusal.number == 0 {
            let past = 8 + 12 * jobs.count as usize;
            buffer[past..508].copy_from_slice(&before[past..508]);
            seal(&mut buffer[..BLOCK]);
        }
        refusal
    }));
}

#[test]
fn a_check_that_does_not_make_the_sum_zero() {
    assert!(!passes(|jobs, buffer| {
        let refusal = write(jobs, buffer);
        if refusal.number == 0 {
            let check = [buffer[508], buffer[509], buffer[510], buffer[511]];
            let sum = u32::from_le_bytes(check).wrapping_neg();
            buffer[508..BLOCK].copy_from_slice(&sum.to_le_bytes());
        }
        refusal
    }));
}

#[test]
fn ages_past_the_count_looked_at() {
    assert!(!passes(|jobs, buffer| {
        let all = LogEntries { count: 41, ..*jobs };
        match number_of(jobs) == 0 && number_of(&all) == 18 && buffer.len() >= BLOCK {
            true => Refusal::new(18, 0),
            false => write(jobs, buffer),
        }
    }));
}

#[test]
fn more_than_41_jobs_written_as_41() {
    assert!(!passes(|jobs, buffer| {
        let count = jobs.count.min(41);
        write(&LogEntries { count, ..*jobs }, buffer)
    }));
}

#[test]
fn a_number_of_jobs_cut_to_16_bits() {
    assert!(!passes(|jobs, buffer| {
        let count = u32::from(jobs.count as u16);
        write(&LogEntries { count, ..*jobs }, buffer)
    }));
}

#[test]
fn an_age_out_of_range_written_as_the_next_in_it() {
    assert!(!passes(|jobs, buffer| {
        let mut cut = *jobs;
        for entry in &mut cut.entries {
            entry.age = entry.age.clamp(1, 1_000_000);
        }
        write(&cut, buffer)
    }));
}

#[test]
fn a_guest_of_id_0_refused() {
    assert!(!passes(|jobs, buffer| {
        let listed = jobs.entries.iter().take(jobs.count as usize);
        match number_of(jobs) == 0
            && buffer.len() >= BLOCK
            && listed.clone().any(|entry| entry.guest == 0)
        {
            true => Refusal::new(7, 0),
            false => write(jobs, buffer),
        }
    }));
}

#[test]
fn an_empty_block_written_on_a_refusal() {
    assert!(!passes(|jobs, buffer| {
        let refusal = write(jobs, buffer);
        if refusal.number == 18 {
            buffer[..BLOCK].fill(0);
        }
        refusal
    }));
}

#[test]
fn the_entry_told_as_the_place_of_a_refusal() {
    assert!(!passes(|jobs, buffer| {
        let refusal = write(jobs, buffer);
        let wrong = jobs.entries.iter().position(|entry| entry.age == 0);
        match refusal.number {
            18 => Refusal::new(18, wrong.unwrap_or(0) as u32),
            _ => refusal,
        }
    }));
}
