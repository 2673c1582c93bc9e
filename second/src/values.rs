//! Arguments of random cases: right ones, wrong ones, and extreme content.

use crate::fence::LONGEST;
use crate::random::Random;

const EXTREME_WORDS: [u32; 12] = [
    0,
    u32::MAX,
    1 << 31,
    (1 << 31) - 1,
    0x8080_8080,
    0x7f7f_7f7f,
    0x8888_8888,
    0x7777_7777,
    0xaaaa_aaaa,
    0x5555_5555,
    0x0101_0101,
    1,
];

/// How often a case's arguments are wrong. Most cases have none that is; in the others each is
/// wrong with the same odds, so that one refusal stands alone at times and several meet at others.
pub struct Odds {
    /// In eighths.
    wrong: usize,
}

impl Odds {
    pub fn new(random: &mut Random) -> Odds {
        let wrong = random.pick(&[0, 0, 0, 0, 0, 0, 0, 1, 2, 5]);
        Odds { wrong }
    }

    pub fn wrong(&self, random: &mut Random) -> bool {
        self.wrong > 0 && random.below(8) < self.wrong
    }

    /// A number of a call: the right one, or any, preferring limits and what is right in its low
    /// bits only.
    pub fn number(&self, random: &mut Random, right: u32) -> u32 {
        if !self.wrong(random) {
            return right;
        }
        match random.below(12) {
            0 => 0,
            1 => u32::MAX,
            2 => 1 << 31,
            3 => right | 1 << 31,
            4 => right + 256,
            5 => right + 65_536,
            6 => right.wrapping_neg(),
            7 => right + 1,
            8 => right.wrapping_sub(1),
            9 => random.draw() as u32,
            _ => random.small(20),
        }
    }

    /// A length: the right one, or any, preferring those that are off by one and those of the
    /// call's other buffers.
    pub fn length(&self, random: &mut Random, right: usize, others: &[usize]) -> usize {
        if !self.wrong(random) {
            return right;
        }
        match random.below(10) {
            0 => 0,
            1 => right + 1,
            2 => right - 1,
            3 => right * 2,
            4 => right / 2,
            5 => LONGEST,
            6 => random.below(LONGEST),
            7 => random.below(right),
            _ => random.pick(others),
        }
    }
}

/// Content of a buffer of words: random, one extreme throughout, extremes mixed, few ones, few
/// zeros.
pub fn fill_words(random: &mut Random, words: &mut [u32]) {
    match random.below(8) {
        0 => words.fill(random.pick(&EXTREME_WORDS)),
        1 => words.fill_with(|| random.pick(&EXTREME_WORDS)),
        2 => words.fill_with(|| sparse(random)),
        3 => words.fill_with(|| !sparse(random)),
        _ => random.fill(words),
    }
}

/// Content of sums: as any words, or each by itself a sum that may soon be clamped.
pub fn fill_sums(random: &mut Random, words: &mut [u32]) {
    if random.one_in(2) {
        fill_words(random, words);
    } else {
        words.fill_with(|| sum_word(random));
    }
}

/// A sum: near a limit, nothing, or any. What a block adds goes from a few to two million.
pub fn sum_word(random: &mut Random) -> u32 {
    let near = random.pick(&[2, 1 << 4, 1 << 10, 1 << 14, 1 << 17]);
    match random.below(4) {
        0 => i32::MAX as u32 - random.small(near),
        1 => i32::MIN as u32 + random.small(near),
        2 => 0,
        _ => random.draw() as u32,
    }
}

/// Few bits, or none.
fn sparse(random: &mut Random) -> u32 {
    let bit = random.draw();
    if bit >> 62 == 0 {
        1 << (bit % 32)
    } else {
        0
    }
}

/// Patterns of so many bits, random or extreme.
pub fn fill_matrix(random: &mut Random, matrix: &mut [u64], bits: usize) {
    let ones = u64::MAX >> (64 - bits);
    let top = 1 << (bits - 1);
    let extremes = [0, ones, top, top - 1, 1, 0xaaaa_aaaa_aaaa_aaaa & ones];
    match random.below(6) {
        0 => matrix.fill(random.pick(&extremes)),
        1 => matrix.fill_with(|| random.pick(&extremes)),
        _ => {
            random.fill(matrix);
            matrix.iter_mut().for_each(|entry| *entry &= ones);
        }
    }
}

/// Makes entries too wide for so many bits: one or several, the first, the last or any, by one bit
/// or by more.
pub fn widen(random: &mut Random, matrix: &mut [u64], bits: usize) {
    if matrix.is_empty() || bits == 64 {
        return;
    }
    for _ in 0..random.pick(&[1, 1, 2, 7]) {
        let at = match random.below(4) {
            0 => 0,
            1 => matrix.len() - 1,
            _ => random.below(matrix.len()),
        };
        matrix[at] |= match random.below(3) {
            0 => 1 << bits,
            1 => 1 << 63,
            _ => (random.draw() | 1) << bits,
        };
    }
}
