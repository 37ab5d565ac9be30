//! Random numbers that are the same in every run: a test that fails can be run again.

/// Marsaglia's xorshift with Vigna's multiplier (xorshift64*).
pub struct Rng(u64);

impl Rng {
    /// The seed must not be 0, from which xorshift never comes away.
    pub fn new(seed: u64) -> Rng {
        assert_ne!(seed, 0);
        Rng(seed)
    }

    pub fn word(&mut self) -> u64 {
        self.0 ^= self.0 >> 12;
        self.0 ^= self.0 << 25;
        self.0 ^= self.0 >> 27;
        self.0.wrapping_mul(0x2545_F491_4F6C_DD1D)
    }

    /// A number from 0 to `bound - 1`, of the upper bits, which are the better ones.
    pub fn below(&mut self, bound: usize) -> usize {
        let upper = self.word() >> 32;
        ((upper * bound as u64) >> 32) as usize
    }

    pub fn byte(&mut self) -> u8 {
        self.below(256) as u8
    }

    pub fn pick<T: Copy>(&mut self, of: &[T]) -> T {
        of[self.below(of.len())]
    }
}
