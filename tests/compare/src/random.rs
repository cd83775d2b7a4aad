//! Random numbers from a seed: splitmix64.

/// A run of random numbers.
pub struct Random(u64);

impl Random {
    /// The run of a seed.
    pub fn new(seed: u64) -> Self {
        Random(seed)
    }

    /// The run of a round under a seed.
    pub fn of_round(seed: u64, round: u64) -> Self {
        Random(Random(seed).any() ^ Random(!round).any())
    }

    /// Any number.
    pub fn any(&mut self) -> u64 {
        self.0 = self.0.wrapping_add(0x9E37_79B9_7F4A_7C15);
        let mut z = self.0;
        z = (z ^ (z >> 30)).wrapping_mul(0xBF58_476D_1CE4_E5B9);
        z = (z ^ (z >> 27)).wrapping_mul(0x94D0_49BB_1331_11EB);
        z ^ (z >> 31)
    }

    /// Any byte.
    pub fn byte(&mut self) -> u8 {
        self.any() as u8
    }

    /// A number below the bound.
    pub fn below(&mut self, bound: usize) -> usize {
        ((u128::from(self.any()) * bound as u128) >> 64) as usize
    }

    /// A number from the least to the most.
    pub fn between(&mut self, least: usize, most: usize) -> usize {
        least + self.below(most - least + 1)
    }

    /// True so many times in a hundred.
    pub fn percent(&mut self, times: usize) -> bool {
        self.below(100) < times
    }

    /// One of some.
    pub fn pick<T: Copy>(&mut self, from: &[T]) -> T {
        from[self.below(from.len())]
    }

    /// A number of any magnitude, each as often as the others.
    pub fn of_any_size(&mut self) -> u64 {
        self.any() >> self.below(64)
    }

    /// Fills bytes.
    pub fn fill(&mut self, bytes: &mut [u8]) {
        for part in bytes.chunks_mut(8) {
            let random = self.any().to_le_bytes();
            part.copy_from_slice(&random[..part.len()]);
        }
    }
}
