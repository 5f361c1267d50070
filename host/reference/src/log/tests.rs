use super::*;

/// Two jobs of plan A.
fn two() -> [LogEntry; 2] {
    [LogEntry::new(9, 1, 24), LogEntry::new(7, 1, 21)]
}

/// The number that a block of two jobs is refused by with some bytes changed and the check made anew.
fn changed(bytes: &[(usize, u8)]) -> u32 {
    let mut block = block_of(&two());
    for (at, value) in bytes {
        block[*at] = *value;
    }
    seal(&mut block);
    read(&block).err().unwrap_or(0)
}

/// The number that a writer refuses by, which then writes nothing and gives no place.
fn refused(jobs: &LogEntries, length: usize) -> u32 {
    let mut buffer = vec![0xA5; length];
    let refusal = write(jobs, &mut buffer);
    if refusal.number != 0 {
        assert_eq!(refusal.place, 0);
        assert_eq!(buffer, vec![0xA5; length]);
    }
    refusal.number
}

#[test]
fn the_layout() {
    let block = block_of(&two());
    assert_eq!(block[..8], [3, 0, 2, 0, 0, 0, 0, 0]);
    assert_eq!(block[8..20], [9, 0, 0, 0, 1, 0, 0, 0, 24, 0, 0, 0]);
    assert_eq!(block[20..32], [7, 0, 0, 0, 1, 0, 0, 0, 21, 0, 0, 0]);
    assert_eq!(block[32..508], [0; 476]);
    assert_eq!(sum_of_words(&block), 0);
    let full = block_of(&[LogEntry::new(u32::MAX, u32::MAX, 1); 41]);
    assert_eq!(
        full[488..500],
        [255, 255, 255, 255, 255, 255, 255, 255, 1, 0, 0, 0]
    );
    assert_eq!(full[500..508], [0; 8]);
    assert_eq!(entry(MOST_JOBS), 500);
}

#[test]
fn what_is_written_is_read() {
    for count in 1..=MOST_JOBS {
        let jobs: Vec<LogEntry> = (0..count as u32)
            .map(|at| LogEntry::new(at * 1_000_003, u32::MAX - at, 1 + 24_999 * at))
            .collect();
        let mut buffer = [0xA5; BLOCK + 4];
        assert_eq!(write(&LogEntries::new(&jobs), &mut buffer), Refusal::NONE);
        assert_eq!(buffer[BLOCK..], [0xA5; 4]);
        assert_eq!(read(&buffer[..BLOCK]), Ok(jobs));
    }
}

#[test]
fn each_refusal_of_a_block_by_itself() {
    assert_eq!(changed(&[]), 0);
    for kind in [0, 1, 2, 4, 255] {
        assert_eq!(changed(&[(0, kind)]), 3);
    }
    assert_eq!(changed(&[(1, 1)]), 3);
    for count in [0, 42, 255] {
        assert_eq!(changed(&[(2, count)]), 18);
    }
    assert_eq!(changed(&[(3, 1)]), 18);
    for at in [4, 7, 32, 43, 499, 500, 507] {
        assert_eq!(changed(&[(at, 1)]), 5);
    }
    assert_eq!(changed(&[(2, 1)]), 5);
    let mut block = block_of(&two());
    block[511] ^= 128;
    assert_eq!(read(&block), Err(2));
}

#[test]
fn ages_are_1_to_1_000_000() {
    for (age, number) in [
        (0, 18),
        (1, 0),
        (1_000_000, 0),
        (1_000_001, 18),
        (u32::MAX, 18),
    ] {
        for jobs in [
            [LogEntry::new(1, 1, age), two()[0]],
            [two()[0], LogEntry::new(1, 1, age)],
        ] {
            assert_eq!(read(&block_of(&jobs)).err().unwrap_or(0), number);
            assert_eq!(refused(&LogEntries::new(&jobs), BLOCK), number);
        }
    }
}

#[test]
fn a_block_is_refused_in_its_order() {
    let mut block = block_of(&two());
    block[0] = 1;
    assert_eq!(read(&block), Err(2));
    assert_eq!(changed(&[(0, 1), (2, 0), (4, 1)]), 3);
    assert_eq!(changed(&[(2, 0), (4, 1)]), 18);
    assert_eq!(changed(&[(4, 1), (28, 0)]), 18);
    // A third entry that counts has age 0; one that does not is no longer zero.
    assert_eq!(changed(&[(2, 3)]), 18);
    assert_eq!(changed(&[(40, 5)]), 5);
    assert_eq!(changed(&[(2, 3), (40, 5)]), 0);
}

#[test]
fn the_writer_refuses_12_then_18() {
    let good = LogEntries::new(&two());
    for (length, number) in [(0, 12), (511, 12), (512, 0), (600, 0)] {
        assert_eq!(refused(&good, length), number);
    }
    for count in [0, 42, 65_537, u32::MAX] {
        let bad = LogEntries { count, ..good };
        assert_eq!(refused(&bad, 512), 18);
        assert_eq!(refused(&bad, 511), 12);
    }
}

#[test]
fn entries_past_the_count_are_not_looked_at_and_zeros_are_written() {
    let mut jobs = LogEntries::new(&two());
    jobs.entries[2..].fill(LogEntry::new(8, 99, u32::MAX));
    let mut buffer = [0xA5; BLOCK];
    assert_eq!(write(&jobs, &mut buffer), Refusal::NONE);
    assert_eq!(buffer, block_of(&two()));
}
