//! A seeded source of numbers (splitmix64), the same on every machine.

/// The source. Equal seeds give equal numbers.
#[derive(Clone, Debug)]
pub struct Random {
    state: u64,
}

impl Random {
    /// A source for this seed.
    pub fn new(seed: u64) -> Random {
        Random { state: seed }
    }

    /// The next 64 bits.
    pub fn bits(&mut self) -> u64 {
        self.state = self.state.wrapping_add(0x9e37_79b9_7f4a_7c15);
        let mut z = self.state;
        z = (z ^ (z >> 30)).wrapping_mul(0xbf58_476d_1ce4_e5b9);
        z = (z ^ (z >> 27)).wrapping_mul(0x94d0_49bb_1331_11eb);
        z ^ (z >> 31)
    }

    /// A word of 32 bits.
    pub fn word(&mut self) -> u32 {
        (self.bits() >> 32) as u32
    }

    /// A byte.
    pub fn byte(&mut self) -> u8 {
        (self.bits() >> 56) as u8
    }

    /// A number below `limit`, which isn't 0.
    pub fn below(&mut self, limit: usize) -> usize {
        (self.bits() % limit as u64) as usize
    }

    /// A number from `low` to `high`, both included.
    pub fn between(&mut self, low: usize, high: usize) -> usize {
        low + self.below(high - low + 1)
    }

    /// Yes once in `times`.
    pub fn once_in(&mut self, times: usize) -> bool {
        self.below(times) == 0
    }

    /// One of the items.
    pub fn pick<T: Copy>(&mut self, items: &[T]) -> T {
        items[self.below(items.len())]
    }

    /// A size from `low` to `high`: often one of the two, often small.
    pub fn size(&mut self, low: usize, high: usize) -> usize {
        match self.below(8) {
            0 => low,
            1 => high,
            2..=4 => self.between(low, high.min(low + 6)),
            _ => self.between(low, high),
        }
    }

    /// A number at or beyond a limit, or one that a narrower number would
    /// take for a small one.
    pub fn beyond(&mut self, limit: usize) -> usize {
        let wrapped = [1 << 8, 1 << 12, 1 << 16, 1 << 31, 1 << 32, 1 << 63];
        match self.below(6) {
            0 => limit,
            1 => limit + 1,
            2 => usize::MAX - self.below(3),
            3 => limit.max(self.pick(&wrapped)),
            4 => limit.max(self.pick(&wrapped)) + self.below(limit),
            _ => limit + self.below(limit),
        }
    }
}
