//! A small random generator, so that a seed repeats every case.

/// A word of a buffer, which can be cut from a random number.
pub trait Word: Copy + PartialEq + Default + std::fmt::LowerHex {
    /// Words cut from one random number.
    const PER_DRAW: usize;
    fn cut(random: u64) -> Self;
}

impl Word for u8 {
    const PER_DRAW: usize = 8;
    fn cut(random: u64) -> u8 {
        random as u8
    }
}

impl Word for u32 {
    const PER_DRAW: usize = 2;
    fn cut(random: u64) -> u32 {
        random as u32
    }
}

impl Word for i32 {
    const PER_DRAW: usize = 2;
    fn cut(random: u64) -> i32 {
        random as i32
    }
}

impl Word for u64 {
    const PER_DRAW: usize = 1;
    fn cut(random: u64) -> u64 {
        random
    }
}

/// splitmix64: a counter, stirred.
pub struct Random {
    state: u64,
}

impl Random {
    pub fn new(seed: u64) -> Random {
        Random { state: seed }
    }

    /// A stream of its own for each name, so that no call's cases hang on those before it.
    pub fn named(seed: u64, name: &str) -> Random {
        let mut random = Random::new(seed);
        for byte in name.bytes() {
            random.state = random.draw() ^ u64::from(byte);
        }
        random
    }

    pub fn draw(&mut self) -> u64 {
        self.state = self.state.wrapping_add(0x9e37_79b9_7f4a_7c15);
        let mut z = self.state;
        z = (z ^ (z >> 30)).wrapping_mul(0xbf58_476d_1ce4_e5b9);
        z = (z ^ (z >> 27)).wrapping_mul(0x94d0_49bb_1331_11eb);
        z ^ (z >> 31)
    }

    /// A number from 0 to `limit` - 1.
    pub fn below(&mut self, limit: usize) -> usize {
        (self.draw() >> 32) as usize % limit
    }

    /// As `below`, for the 32-bit numbers of the calls.
    pub fn small(&mut self, limit: u32) -> u32 {
        self.below(limit as usize) as u32
    }

    pub fn one_in(&mut self, limit: usize) -> bool {
        self.below(limit) == 0
    }

    pub fn pick<T: Copy>(&mut self, from: &[T]) -> T {
        from[self.below(from.len())]
    }

    pub fn fill<T: Word>(&mut self, words: &mut [T]) {
        for group in words.chunks_mut(T::PER_DRAW) {
            let random = self.draw();
            for (j, word) in group.iter_mut().enumerate() {
                *word = T::cut(random >> (64 / T::PER_DRAW * j));
            }
        }
    }

    pub fn shuffle<T>(&mut self, items: &mut [T]) {
        for last in (1..items.len()).rev() {
            items.swap(last, self.below(last + 1));
        }
    }
}
