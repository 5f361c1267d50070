//! Random numbers that a seed decides (splitmix64).

pub struct Random(u64);

impl Random {
    pub fn new(seed: u64) -> Random {
        Random(seed)
    }

    pub fn next(&mut self) -> u64 {
        self.0 = self.0.wrapping_add(0x9E37_79B9_7F4A_7C15);
        let mut z = self.0;
        z = (z ^ (z >> 30)).wrapping_mul(0xBF58_476D_1CE4_E5B9);
        z = (z ^ (z >> 27)).wrapping_mul(0x94D0_49BB_1331_11EB);
        z ^ (z >> 31)
    }

    /// Any u32.
    pub fn word(&mut self) -> u32 {
        (self.next() >> 32) as u32
    }

    /// A number from `low` to `high`, both included.
    pub fn from(&mut self, low: u32, high: u32) -> u32 {
        let width = u64::from(high - low) + 1;
        low + (self.next() % width) as u32
    }

    /// A number below `end`, as an index.
    pub fn below(&mut self, end: usize) -> usize {
        (self.next() % end as u64) as usize
    }

    /// True once in `times`.
    pub fn once_in(&mut self, times: usize) -> bool {
        self.below(times) == 0
    }

    pub fn pick<T: Copy>(&mut self, of: &[T]) -> T {
        of[self.below(of.len())]
    }

    /// Puts things into any order.
    pub fn shuffle<T>(&mut self, things: &mut [T]) {
        for at in (1..things.len()).rev() {
            things.swap(at, self.below(at + 1));
        }
    }

    /// A number of ticks: often one that a tick or two make wrap.
    pub fn count(&mut self) -> u64 {
        match self.below(8) {
            0 => self.next(),
            1 => u64::from(self.edge()),
            2 => 1 << 32,
            3 => u64::MAX - 1,
            4 | 5 => u64::MAX,
            _ => 0,
        }
    }

    /// A number that tests look for: an edge of some range, or any.
    pub fn edge(&mut self) -> u32 {
        const EDGES: [u32; 22] = [
            0,
            1,
            2,
            7,
            8,
            9,
            15,
            16,
            17,
            255,
            65_535,
            65_536,
            65_537,
            999_999,
            1_000_000,
            1_000_001,
            1_131_070,
            1_131_071,
            0x7FFF_FFFF,
            0x8000_0000,
            u32::MAX - 1,
            u32::MAX,
        ];
        match self.below(8) {
            0 => self.word(),
            1 => self.from(0, 100),
            _ => self.pick(&EDGES),
        }
    }
}
