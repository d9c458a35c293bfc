//! Numbers that look random and are the same in every run, for tests and the benchmark.

/// A generator (xorshift64*), from a seed that a test prints.
pub struct Random(u64);

impl Random {
    pub fn new(seed: u64) -> Random {
        Random(seed.wrapping_mul(0x9E37_79B9_7F4A_7C15) | 1)
    }

    /// Any number.
    pub fn number(&mut self) -> u64 {
        self.0 ^= self.0 >> 12;
        self.0 ^= self.0 << 25;
        self.0 ^= self.0 >> 27;
        self.0.wrapping_mul(0x2545_F491_4F6C_DD1D)
    }

    /// A number below n, which is not 0.
    pub fn below(&mut self, n: usize) -> usize {
        ((self.number() >> 11) % n as u64) as usize
    }

    /// True once in n.
    pub fn once_in(&mut self, n: usize) -> bool {
        self.below(n) == 0
    }

    /// Bytes of which each is one of the first `letters`.
    pub fn bytes(&mut self, n: usize, letters: usize) -> Vec<u8> {
        (0..n).map(|_| self.below(letters) as u8).collect()
    }
}
