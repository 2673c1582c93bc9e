//! wz_step and wz_plain_step.

use super::{every_selector, right_selector, selector, step_lengths, Bench};
use crate::fence::{compare, Fenced};
use crate::random::Random;
use crate::report::{Difference, Tally};
use crate::rules::{A, B, C};
use crate::values::{fill_words, Odds};
use crate::wazimroot::Calls;

/// The buffers of a step: A, B, C, D.
type Buffers = [Fenced<u32>; 4];

fn buffers() -> Buffers {
    ["A", "B", "C", "D"].map(Fenced::new)
}

fn lay(random: &mut Random, odds: &Odds, lengths: [usize; 4], buffers: &mut Buffers) {
    for (buffer, right) in buffers.iter_mut().zip(lengths) {
        let length = odds.length(random, right, &lengths);
        buffer.lay_filled(random, length, fill_words);
    }
}

pub fn wz_step(bench: &mut Bench) -> Result<Tally, Difference> {
    let mut buffers = buffers();
    bench.random_cases("wz_step", |bench| step(bench, &mut buffers))
}

fn step(bench: &mut Bench, buffers: &mut Buffers) -> Result<u64, Difference> {
    let random = &mut bench.random;
    let odds = Odds::new(random);
    let right = right_selector(random);
    let selector = selector(random, &odds, right);
    lay(random, &odds, step_lengths(bench.rules, right[0]), buffers);
    ask(bench, selector, buffers)
}

fn ask(bench: &Bench, selector: [u32; 3], buffers: &mut Buffers) -> Result<u64, Difference> {
    let [a, b, c, d] = buffers;
    let library = bench.library;
    let library = library.step(
        selector,
        a.library(),
        b.library(),
        c.library(),
        d.library_mut(),
    );
    let rules = bench.rules;
    let rules = rules.step(selector, a.rules(), b.rules(), c.rules(), d.rules_mut());
    compare(library, rules, &[a, b, c, d], || {
        format!("kind, signs, mode {selector:?}")
    })
}

/// Words that A and B are filled with: the least and the greatest numbers of each width, and others.
const EXTREMES: [u32; 7] = [
    0,
    u32::MAX,
    0x8080_8080,
    0x7f7f_7f7f,
    0x8888_8888,
    0x7777_7777,
    0x0101_0101,
];
const EXTREME_SUMS: [u32; 5] = [0, 1, u32::MAX, 1 << 31, (1 << 31) - 1];

/// Every kind, signs and mode with A, B and C each filled with one extreme.
pub fn extremes(bench: &mut Bench) -> Result<Tally, Difference> {
    let name = "wz_step, extremes";
    bench.random = Random::named(bench.seed, name);
    let mut tally = Tally::new(name);
    let mut buffers = buffers();
    for selector in every_selector() {
        let [_, _, _, nd] = step_lengths(bench.rules, selector[0]);
        for a in EXTREMES {
            lay_constant(bench, selector[0], A, a, &mut buffers[0]);
            for b in EXTREMES {
                lay_constant(bench, selector[0], B, b, &mut buffers[1]);
                for c in EXTREME_SUMS {
                    lay_constant(bench, selector[0], C, c, &mut buffers[2]);
                    buffers[3].lay(&mut bench.random, nd);
                    let answer = ask(bench, selector, &mut buffers);
                    tally.count(answer.map_err(|it| it.within(name))?);
                }
            }
        }
    }
    Ok(tally)
}

fn lay_constant(bench: &mut Bench, kind: u32, role: u32, word: u32, buffer: &mut Fenced<u32>) {
    let length = bench.rules.layouts.of(kind, role).buffer_length();
    buffer.lay_filled(&mut bench.random, length, |_, words| words.fill(word));
}

pub fn wz_plain_step(bench: &mut Bench) -> Result<Tally, Difference> {
    let mut buffers = buffers();
    bench.random_cases("wz_plain_step", |bench| plain_step(bench, &mut buffers))
}

fn plain_step(bench: &mut Bench, buffers: &mut Buffers) -> Result<u64, Difference> {
    let random = &mut bench.random;
    let odds = Odds::new(random);
    let [right, ..] = right_selector(random);
    let kind = odds.number(random, right);
    lay(random, &odds, step_lengths(bench.rules, right), buffers);
    let [a, b, c, d] = buffers;
    let library = bench.library;
    let library = library.plain_step(kind, a.library(), b.library(), c.library(), d.library_mut());
    let rules = bench.rules;
    let rules = rules.plain_step(kind, a.rules(), b.rules(), c.rules(), d.rules_mut());
    compare(library, rules, &[a, b, c, d], || format!("kind {kind}"))
}
