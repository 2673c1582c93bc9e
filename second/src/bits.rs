//! Elements and words, one bit at a time: a lane's words are a string of bits, the low bit of its
//! first word first.

use crate::layout::Layout;

/// The pattern of element `i`.
pub fn element(lane_words: &[u32], i: usize, bits: usize) -> u64 {
    let mut pattern = 0;
    for j in 0..bits {
        let at = i * bits + j;
        let bit = lane_words[at / 32] >> (at % 32) & 1;
        pattern |= u64::from(bit) << j;
    }
    pattern
}

/// Writes the pattern of element `i`, and no bit else.
pub fn put(lane_words: &mut [u32], i: usize, bits: usize, pattern: u64) {
    for j in 0..bits {
        let at = i * bits + j;
        let bit = (pattern >> j & 1) as u32;
        let word = &mut lane_words[at / 32];
        *word = *word & !(1 << (at % 32)) | bit << (at % 32);
    }
}

/// Lane words to matrix.
pub fn unpack(layout: &Layout, words: &[u32], matrix: &mut [u64]) {
    for (lane, lane_words) in words.chunks(layout.words).enumerate() {
        for i in 0..layout.elements as usize {
            matrix[layout.index(lane, i)] = element(lane_words, i, layout.bits);
        }
    }
}

/// Matrix to lane words.
pub fn pack(layout: &Layout, matrix: &[u64], words: &mut [u32]) {
    for (lane, lane_words) in words.chunks_mut(layout.words).enumerate() {
        for i in 0..layout.elements as usize {
            put(lane_words, i, layout.bits, matrix[layout.index(lane, i)]);
        }
    }
}

/// Whether an entry is a pattern of so many bits.
pub fn fits(entry: u64, bits: usize) -> bool {
    u128::from(entry) < 1u128 << bits
}
