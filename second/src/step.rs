//! "One step": exact sums, finished once at the end.

use crate::bits;
use crate::layout::{Layout, Layouts};
use crate::rules::{self, A, B, C, ONE_BIT};

/// Entries of the greatest A or B of the arithmetic kinds.
const MOST_ENTRIES: usize = 4096;
/// Entries of the greatest C.
pub const SUMS: usize = 128;

const LEAST: i128 = -2_147_483_648;
const GREATEST: i128 = 2_147_483_647;
const MODULUS: i128 = 4_294_967_296;

/// The number a pattern of so many bits stands for, in two's complement where it is signed.
fn number(pattern: u64, bits: usize, signed: bool) -> i64 {
    if signed && pattern >= 1 << (bits - 1) {
        pattern as i64 - (1 << bits)
    } else {
        pattern as i64
    }
}

/// Whether A or B is signed: "0 both signed (two's complement), 1 A unsigned, 2 B unsigned, 3 both
/// unsigned". One-bit elements are bare bits.
pub fn signed(kind: u32, signs: u32, role: u32) -> bool {
    match signs {
        _ if ONE_BIT.contains(&kind) => false,
        0 => true,
        1 => role == B,
        2 => role == A,
        _ => false,
    }
}

/// The numbers of an A or B buffer, row-major.
fn numbers(layouts: &Layouts, selector: [u32; 3], role: u32, words: &[u32]) -> Vec<i64> {
    let [kind, signs, _] = selector;
    let layout = layouts.of(kind, role);
    let signed = signed(kind, signs, role);
    let mut matrix = [0; MOST_ENTRIES];
    bits::unpack(layout, words, &mut matrix);
    let patterns = matrix[..layout.matrix_length()].iter();
    let numbers = patterns.map(|&pattern| number(pattern, layout.bits, signed));
    numbers.collect()
}

/// The place, row-major, of a word of a C or D buffer: in the arithmetic kinds each of its elements
/// is one word.
pub fn place_of_word(layout: &Layout, at: usize) -> usize {
    layout.index(at / layout.words, at % layout.words)
}

/// The numbers of a C or D buffer, row-major; each word is signed.
pub fn sums(layouts: &Layouts, kind: u32, words: &[u32]) -> [i64; SUMS] {
    let layout = layouts.of(kind, C);
    let mut sums = [0; SUMS];
    for (at, &word) in words.iter().enumerate() {
        sums[place_of_word(layout, at)] = i64::from(word as i32);
    }
    sums
}

/// The exact sum over k at each place, row-major, without C: of the products, or in the one-bit kinds
/// of the combined bits that are ones.
pub fn contributions(layouts: &Layouts, selector: [u32; 3], a: &[u32], b: &[u32]) -> [i128; SUMS] {
    let [kind, _, mode] = selector;
    let a = numbers(layouts, selector, A, a);
    let b = numbers(layouts, selector, B, b);
    match (ONE_BIT.contains(&kind), mode) {
        (true, 0) => totals(kind, &a, &b, |a, b| i64::from(a != b)),
        (true, _) => totals(kind, &a, &b, |a, b| i64::from(a == 1 && b == 1)),
        _ => totals(kind, &a, &b, |a, b| a * b),
    }
}

/// At each place the total over k of what `term` makes of A(r, k) and B(k, c).
fn totals(number: u32, a: &[i64], b: &[i64], term: impl Fn(i64, i64) -> i64) -> [i128; SUMS] {
    let rules::Kind { m, n, k, .. } = rules::kind(number);
    let (m, n, depth) = (m as usize, n as usize, k as usize);
    let mut totals = [0; SUMS];
    let mut column = vec![0; depth];
    for c in 0..n {
        column
            .iter_mut()
            .enumerate()
            .for_each(|(k, entry)| *entry = b[k * n + c]);
        for r in 0..m {
            let row = &a[r * depth..][..depth];
            let terms = row.iter().zip(&column).map(|(&a, &b)| term(a, b));
            totals[r * n + c] = terms.map(i128::from).sum();
        }
    }
    totals
}

/// The one-bit kinds wrap; in the others mode 0 wraps and mode 1 clamps.
pub fn clamps(kind: u32, mode: u32) -> bool {
    !ONE_BIT.contains(&kind) && mode == 1
}

/// Whether an exact result lies outside 32 bits.
pub fn outside(exact: i128) -> bool {
    !(LEAST..=GREATEST).contains(&exact)
}

/// The exact result, wrapped to 32 bits or clamped, as a signed number.
pub fn finish(clamps: bool, exact: i128) -> i64 {
    let result = if clamps {
        exact.clamp(LEAST, GREATEST)
    } else {
        let low = exact.rem_euclid(MODULUS);
        if low > GREATEST {
            low - MODULUS
        } else {
            low
        }
    };
    result as i64
}

/// The exact result at the place of each of C's words; the selectors and lengths have been judged.
pub fn results(
    layouts: &Layouts,
    selector: [u32; 3],
    a: &[u32],
    b: &[u32],
    c: &[u32],
) -> Vec<i128> {
    let layout = layouts.of(selector[0], C);
    let start = sums(layouts, selector[0], c);
    let added = contributions(layouts, selector, a, b);
    let places = (0..c.len()).map(|at| place_of_word(layout, at));
    places
        .map(|place| i128::from(start[place]) + added[place])
        .collect()
}

/// D's words from A's, B's and C's.
pub fn step(layouts: &Layouts, selector: [u32; 3], a: &[u32], b: &[u32], c: &[u32], d: &mut [u32]) {
    let [kind, _, mode] = selector;
    let results = results(layouts, selector, a, b, c);
    for (word, exact) in d.iter_mut().zip(results) {
        *word = finish(clamps(kind, mode), exact) as i32 as u32;
    }
}
