//! wz_scale.

use super::Bench;
use crate::fence::{compare, Fenced};
use crate::random::Random;
use crate::report::{Difference, Tally};
use crate::values::{fill_words, Odds};
use crate::wazimroot::Calls;

/// Every selector with which nothing is wrong: size, side, byte-id, thread-id.
fn every_selector() -> Vec<[u32; 4]> {
    let mut selectors = Vec::new();
    for (size, side) in [1, 2, 4]
        .into_iter()
        .flat_map(|size| [(size, 0), (size, 1)])
    {
        for byte_id in (0..4).step_by(size as usize) {
            for thread_id in 0..if side == 0 { 2 } else { 4 } {
                selectors.push([size, side, byte_id, thread_id]);
            }
        }
    }
    selectors
}

/// Numbers of the output that right selectors need.
fn needed([size, side, ..]: [u32; 4]) -> usize {
    size as usize * if side == 0 { 16 } else { 8 }
}

/// Words without a byte of 255.
fn fill_numbers(random: &mut Random, words: &mut [u32]) {
    words.fill_with(|| {
        let bytes = [(); 4].map(|()| match random.below(3) {
            0 => random.pick(&[0, 1, 126, 127, 128, 253, 254]),
            _ => random.below(255) as u8,
        });
        u32::from_le_bytes(bytes)
    });
}

/// Makes byte `at` of the metadata, lane 0's four first, 255.
fn put_nan(words: &mut [u32], at: usize) {
    words[at / 4] |= 0xff << (at % 4 * 8);
}

/// Bytes that are none of them 255, but for a few, which may be chosen or not.
fn fill_with_nans(random: &mut Random, words: &mut [u32]) {
    fill_numbers(random, words);
    if words.is_empty() {
        return;
    }
    for _ in 0..random.pick(&[0, 0, 1, 1, 2, 5, 40]) {
        put_nan(words, random.below(4 * words.len()));
    }
}

pub fn wz_scale(bench: &mut Bench) -> Result<Tally, Difference> {
    let selectors = every_selector();
    let mut metadata = Fenced::new("metadata");
    let mut out = Fenced::new("output");
    bench.random_cases("wz_scale", |bench| {
        let random = &mut bench.random;
        let odds = Odds::new(random);
        let right = random.pick(&selectors);
        let selector = right.map(|number| odds.number(random, number));
        let length = odds.length(random, 32, &[needed(right), 16]);
        let fill = random.pick(&[fill_words, fill_with_nans]);
        metadata.lay_filled(random, length, fill);
        let length = odds.length(random, needed(right), &[8, 16, 32, 64]);
        out.lay(random, length);
        asked(bench, selector, &mut metadata, &mut out)
    })
}

/// K4: with every right selector, each byte of the metadata by itself is 255.
pub fn nans(bench: &mut Bench) -> Result<Tally, Difference> {
    let name = "scale bytes of 255";
    bench.random = Random::named(bench.seed, name);
    let mut tally = Tally::new(name);
    let mut metadata = Fenced::new("metadata");
    let mut out = Fenced::new("output");
    for selector in every_selector() {
        for at in 0..128 {
            metadata.lay_filled(&mut bench.random, 32, |random, words| {
                fill_numbers(random, words);
                put_nan(words, at);
            });
            out.lay(&mut bench.random, needed(selector));
            let answer = asked(bench, selector, &mut metadata, &mut out);
            tally.count(answer.map_err(|it| it.within(&format!("{name}, byte {at}")))?);
        }
    }
    Ok(tally)
}

fn asked(
    bench: &Bench,
    selector: [u32; 4],
    metadata: &mut Fenced<u32>,
    out: &mut Fenced<i32>,
) -> Result<u64, Difference> {
    let library = bench.library;
    let library = library.scale(selector, metadata.library(), out.library_mut());
    let rules = bench.rules;
    let rules = rules.scale(selector, metadata.rules(), out.rules_mut());
    compare(library, rules, &[metadata, out], || {
        format!("size, side, byte-id, thread-id {selector:?}")
    })
}
