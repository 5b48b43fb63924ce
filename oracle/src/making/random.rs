//! Random numbers from a seed.

/// Marsaglia's xorshift64, with a multiplication.
pub struct Random(pub u64);

impl Random {
    pub fn next(&mut self) -> u64 {
        self.0 ^= self.0 << 13;
        self.0 ^= self.0 >> 7;
        self.0 ^= self.0 << 17;
        self.0.wrapping_mul(0x2545F4914F6CDD1D) >> 20
    }

    pub fn below(&mut self, n: usize) -> usize {
        (self.next() % n as u64) as usize
    }

    pub fn chance(&mut self, of: usize) -> bool {
        self.below(of) == 0
    }

    pub fn take(&mut self, pool: &mut Vec<u16>) -> u16 {
        let i = self.below(pool.len());
        pool.swap_remove(i)
    }
}
