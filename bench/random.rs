//! Random input, the same at each run.

pub struct Random(u64);

impl Random {
    pub fn new() -> Random {
        Random(0x9e37_79b9_7f4a_7c15)
    }

    /// The generator xorshift64*; its high bits are the good ones.
    pub fn word(&mut self) -> u32 {
        self.0 ^= self.0 >> 12;
        self.0 ^= self.0 << 25;
        self.0 ^= self.0 >> 27;
        (self.0.wrapping_mul(0x2545_f491_4f6c_dd1d) >> 32) as u32
    }

    /// A number below `limit`, which is not 0.
    pub fn below(&mut self, limit: u32) -> u32 {
        self.word() % limit
    }

    pub fn words(&mut self, n: usize) -> Vec<u32> {
        (0..n).map(|_| self.word()).collect()
    }

    /// Matrix entries of so many bits.
    pub fn entries(&mut self, n: usize, bits: usize) -> Vec<u64> {
        (0..n).map(|_| self.double_word() >> (64 - bits)).collect()
    }

    fn double_word(&mut self) -> u64 {
        (self.word() as u64) << 32 | self.word() as u64
    }
}
