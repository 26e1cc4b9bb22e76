//! Numbers drawn from a seed, the same for the same seed.

pub struct Random(u64);

impl Random {
    /// The numbers of the case of this index, under a seed.
    pub fn of(seed: u64, index: u64) -> Random {
        let mut random = Random(seed.wrapping_mul(0xD134_2543_DE82_EF95) ^ index.wrapping_mul(0x2545_F491_4F6C_DD1D));
        for _ in 0..4 {
            random.next();
        }
        random
    }

    // xorshift on a counter's mix
    pub fn next(&mut self) -> u64 {
        self.0 = self.0.wrapping_add(0x9E37_79B9_7F4A_7C15);
        let mut z = self.0;
        z = (z ^ (z >> 32)).wrapping_mul(0xDABA_0B6E_B093_22E3);
        z = (z ^ (z >> 32)).wrapping_mul(0xDABA_0B6E_B093_22E3);
        z ^ (z >> 32)
    }

    /// A number below `bound`.
    pub fn below(&mut self, bound: usize) -> usize {
        (self.next() % bound as u64) as usize
    }

    /// A number from `low` to `high`, both included.
    pub fn from(&mut self, low: usize, high: usize) -> usize {
        low + self.below(high - low + 1)
    }

    pub fn percent(&mut self, chance: usize) -> bool {
        self.below(100) < chance
    }

    pub fn pick<T: Copy>(&mut self, list: &[T]) -> T {
        list[self.below(list.len())]
    }
}
