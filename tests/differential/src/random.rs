//! A small seeded generator (splitmix64).

#[derive(Clone, Debug)]
pub struct Random {
    state: u64,
}

impl Random {
    pub fn new(seed: u64) -> Random {
        Random { state: seed }
    }

    pub fn next(&mut self) -> u64 {
        self.state = self.state.wrapping_add(0x9e37_79b9_7f4a_7c15);
        let mut z = self.state;
        z = (z ^ (z >> 30)).wrapping_mul(0xbf58_476d_1ce4_e5b9);
        z = (z ^ (z >> 27)).wrapping_mul(0x94d0_49bb_1331_11eb);
        z ^ (z >> 31)
    }

    /// A number below the bound, which is not 0.
    pub fn below(&mut self, bound: usize) -> usize {
        (self.next() % bound as u64) as usize
    }

    /// A number from `least` to `most`, both possible.
    pub fn between(&mut self, least: usize, most: usize) -> usize {
        least + self.below(most - least + 1)
    }

    /// Yes once in `n` times.
    pub fn once_in(&mut self, n: usize) -> bool {
        self.below(n) == 0
    }

    pub fn pick<T: Copy>(&mut self, choices: &[T]) -> T {
        choices[self.below(choices.len())]
    }

    /// A length near a limit, or far from it.
    pub fn near(&mut self, limit: usize) -> usize {
        match self.below(10) {
            0 => 0,
            1 => self.below(limit + 1),
            2 => limit + self.below(limit + 20),
            3..=5 => limit,
            _ => (limit + self.below(15)).saturating_sub(7),
        }
    }

    /// A number with many of its kinds of size: small, near a power of two, at either end, anything.
    pub fn number(&mut self) -> u32 {
        match self.below(6) {
            0 => self.below(4) as u32,
            1 => self.below(20) as u32,
            2 => (1u32 << self.below(32)).wrapping_sub(self.below(2) as u32),
            3 => u32::MAX - self.below(3) as u32,
            4 => self.below(1100) as u32,
            _ => self.next() as u32,
        }
    }

    /// A number of 64 bits: with any number of digits, near a power of ten, near a power of two, at either end, anything.
    pub fn long(&mut self) -> u64 {
        match self.below(6) {
            0 => self.next() >> self.below(64),
            1 => 10u64.pow(self.below(20) as u32) - self.below(2) as u64,
            2 => (1u64 << self.below(64)).wrapping_sub(self.below(2) as u64),
            3 => u64::MAX - self.below(3) as u64,
            4 => self.below(20_000) as u64,
            _ => self.next(),
        }
    }

    /// A place for so many cells in a buffer of that length: where they just fit, where one is too many, anywhere around, or so far on
    /// that place and cells, added, pass 32 or 64 bits.
    pub fn place(&mut self, length: usize, cells: usize) -> usize {
        let near = self.below(length + 12);
        match self.below(8) {
            0 | 1 => length.saturating_sub(cells),
            2 => (length + 1).saturating_sub(cells),
            3 | 4 => near,
            5 => usize::MAX - self.below(cells + 12),
            6 => self.pick(&[1 << 31, 1 << 32, 1 << 63]) + near,
            _ => self.next() as usize,
        }
    }

    /// A count or an answer that no table has: over 4,096, and values where six times it passes 32 or 64 bits.
    pub fn huge(&mut self) -> usize {
        let corners = [
            4097,
            4098,
            65536,
            715_827_882,
            715_827_883,
            1 << 32,
            usize::MAX / 6,
            usize::MAX / 6 + 1,
            usize::MAX - 1,
            usize::MAX,
        ];
        match self.below(4) {
            0 => 4097 + self.below(100_000),
            1 => self.next() as usize | 1 << 20,
            _ => self.pick(&corners),
        }
    }
}
