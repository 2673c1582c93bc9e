//! wz_unpack and wz_pack.

use super::Bench;
use crate::fence::{compare, Fenced};
use crate::report::{Difference, Tally};
use crate::rules::KINDS;
use crate::values::{fill_matrix, fill_words, widen, Odds};
use crate::wazimroot::Calls;

pub fn wz_unpack(bench: &mut Bench) -> Result<Tally, Difference> {
    let mut words = Fenced::new("words");
    let mut matrix = Fenced::new("matrix");
    bench.random_cases("wz_unpack", |bench| unpack(bench, &mut words, &mut matrix))
}

fn unpack(
    bench: &mut Bench,
    words: &mut Fenced<u32>,
    matrix: &mut Fenced<u64>,
) -> Result<u64, Difference> {
    let random = &mut bench.random;
    let odds = Odds::new(random);
    let (kind, role) = (1 + random.small(KINDS), random.small(3));
    let layout = bench.rules.layouts.of(kind, role);
    let (nw, nm) = (layout.buffer_length(), layout.matrix_length());
    let (kind, role) = (odds.number(random, kind), odds.number(random, role));
    let length = odds.length(random, nw, &[nm, 32, 64]);
    words.lay_filled(random, length, fill_words);
    let length = odds.length(random, nm, &[nw, 128, 256]);
    matrix.lay(random, length);
    let library = bench.library;
    let library = library.unpack(kind, role, words.library(), matrix.library_mut());
    let rules = bench.rules;
    let rules = rules.unpack(kind, role, words.rules(), matrix.rules_mut());
    compare(library, rules, &[words, matrix], || {
        format!("kind {kind}, role {role}")
    })
}

pub fn wz_pack(bench: &mut Bench) -> Result<Tally, Difference> {
    let mut matrix = Fenced::new("matrix");
    let mut words = Fenced::new("words");
    bench.random_cases("wz_pack", |bench| pack(bench, &mut matrix, &mut words))
}

fn pack(
    bench: &mut Bench,
    matrix: &mut Fenced<u64>,
    words: &mut Fenced<u32>,
) -> Result<u64, Difference> {
    let random = &mut bench.random;
    let odds = Odds::new(random);
    let (kind, role) = (1 + random.small(KINDS), random.small(3));
    let layout = bench.rules.layouts.of(kind, role);
    let (nw, nm) = (layout.buffer_length(), layout.matrix_length());
    let (kind, role) = (odds.number(random, kind), odds.number(random, role));
    let length = odds.length(random, nm, &[nw, 128, 256]);
    matrix.lay_filled(random, length, |random, entries| {
        fill_matrix(random, entries, layout.bits);
        if odds.wrong(random) || random.one_in(10) {
            widen(random, entries, layout.bits);
        }
    });
    let length = odds.length(random, nw, &[nm, 32, 64]);
    words.lay(random, length);
    let library = bench.library;
    let library = library.pack(kind, role, matrix.library(), words.library_mut());
    let rules = bench.rules;
    let rules = rules.pack(kind, role, matrix.rules(), words.rules_mut());
    compare(library, rules, &[matrix, words], || {
        format!("kind {kind}, role {role}")
    })
}
