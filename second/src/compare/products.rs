//! One product at a time, in the kinds whose products are formed without a multiplier: A and B are
//! 0 but for one entry each, at the same k, so that D is 0 but for one, which is their product.

use super::{step_lengths, Bench};
use crate::bits;
use crate::layout::Layout;
use crate::random::Random;
use crate::report::{shown, Difference, Tally};
use crate::rules::{A, B, C};
use crate::step::signed;

/// The four-bit kinds, and the patterns of four bits.
const KINDS: [u32; 3] = [4, 5, 12];
const PATTERNS: u64 = 16;

/// The buffer of a matrix that is 0 but for this pattern at this place.
fn alone(layout: &Layout, row: u32, column: u32, pattern: u64) -> Vec<u32> {
    let [lane, element] = layout.holder(row, column).expect("a place of the matrix");
    let mut words = vec![0; layout.buffer_length()];
    let lane_words = &mut words[lane as usize * layout.words..][..layout.words];
    bits::put(lane_words, element as usize, layout.bits, pattern);
    words
}

/// What four bits stand for.
fn number(pattern: u64, signed: bool) -> i32 {
    let number = pattern as i32;
    if signed && number >= 8 {
        number - 16
    } else {
        number
    }
}

fn one(
    bench: &mut Bench,
    [kind, signs]: [u32; 2],
    k: u32,
    a: u64,
    b: u64,
) -> Result<u64, Difference> {
    let [of_a, of_b, of_c] = [A, B, C].map(|role| bench.rules.layouts.of(kind, role));
    let [row, column] = [of_a.rows, of_b.columns].map(|limit| bench.random.small(limit));
    let selector = [kind, signs, bench.random.small(2)];
    let product = number(a, signed(kind, signs, A)) * number(b, signed(kind, signs, B));
    let expected = alone(of_c, row, column, u64::from(product as u32));
    let [_, _, nc, _] = step_lengths(bench.rules, kind);
    let mut d = vec![1; nc];
    let answer = bench.library.step(
        selector,
        &alone(of_a, row, k, a),
        &alone(of_b, k, column, b),
        &vec![0; nc],
        &mut d,
    );
    if (answer, &d) != (0, &expected) {
        let answer = shown(answer);
        let at = format!("kind, signs, mode {selector:?}, row {row}, k {k}, column {column}");
        return Err(Difference::new(format!(
            "{at}: {a} times {b}: {answer}, {d:?}, rules {expected:?}"
        )));
    }
    Ok(answer)
}

/// Every signs, every k and every two patterns, at a random row and column.
pub fn products(bench: &mut Bench) -> Result<Tally, Difference> {
    let name = "products";
    bench.random = Random::named(bench.seed, name);
    let mut tally = Tally::new(name);
    for kind in KINDS {
        let depth = bench.rules.layouts.of(kind, A).columns;
        for (signs, k) in (0..4).flat_map(|signs| (0..depth).map(move |k| (signs, k))) {
            for pair in 0..PATTERNS * PATTERNS {
                let answer = one(bench, [kind, signs], k, pair / PATTERNS, pair % PATTERNS);
                tally.count(answer.map_err(|it| it.within(name))?);
            }
        }
    }
    Ok(tally)
}
