//! wz_open, wz_feed, wz_read and wz_marks, all but the first on runs made up by hand.

use super::{right_selector, selector, step_lengths, Bench};
use crate::fence::{array, array_mut, compare, Fenced};
use crate::random::Random;
use crate::report::{Difference, Tally};
use crate::run::{set_mark, HEAD, MARKS, MARK_WORDS, WORDS};
use crate::step::{self, SUMS};
use crate::values::{fill_sums, fill_words, Odds};
use crate::wazimroot::Calls;

pub fn wz_open(bench: &mut Bench) -> Result<Tally, Difference> {
    let mut c = Fenced::new("C");
    let mut run = Fenced::new("run");
    bench.random_cases("wz_open", |bench| open(bench, &mut c, &mut run))
}

fn open(bench: &mut Bench, c: &mut Fenced<u32>, run: &mut Fenced<u32>) -> Result<u64, Difference> {
    let random = &mut bench.random;
    let odds = Odds::new(random);
    let right = right_selector(random);
    let [na, nb, nc, _] = step_lengths(bench.rules, right[0]);
    let selector = selector(random, &odds, right);
    let length = odds.length(random, nc, &[na, nb, WORDS]);
    c.lay_filled(random, length, fill_words);
    run.lay(random, WORDS);
    let library = bench.library;
    let library = library.open(selector, c.library(), array_mut(run.library_mut()));
    let rules = bench.rules;
    let rules = rules.open(selector, c.rules(), array_mut(run.rules_mut()));
    compare(library, rules, &[c, run], || {
        format!("kind, signs, mode {selector:?}")
    })
}

/// A number of accepted blocks under the limit, or one at the limit or past it.
fn number(random: &mut Random, odds: &Odds) -> u32 {
    if odds.wrong(random) {
        random.pick(&[4096, 4096, 4096, 4097, 8192, 1 << 16, 1 << 31, u32::MAX])
    } else {
        let any = random.small(4096);
        random.pick(&[0, 1, 4094, 4095, any])
    }
}

/// Marks that a run with this selector and so many sums may hold: none where it can't clamp, none
/// past the last sum.
pub fn fill_marks(random: &mut Random, selector: [u32; 3], sums: usize, marks: &mut [u32]) {
    let [kind, _, mode] = selector;
    marks.fill(0);
    if step::clamps(kind, mode) && random.one_in(2) {
        fill_words(random, &mut marks[..sums / 32]);
    }
}

/// One mark, wherever it is, or any.
fn fill_wrong_marks(random: &mut Random, marks: &mut [u32]) {
    if random.one_in(2) {
        marks.fill(0);
        set_mark(marks, random.below(SUMS));
    } else {
        fill_words(random, marks);
    }
}

/// Lays a run made up by hand, whose unused sum words are like the used ones; gives its kind,
/// signs, mode and number.
fn lay_run(
    random: &mut Random,
    odds: &Odds,
    right: [u32; 3],
    sums: usize,
    run: &mut Fenced<u32>,
) -> [u32; HEAD] {
    let [kind, signs, mode] = selector(random, odds, right);
    let head = [kind, signs, mode, number(random, odds)];
    run.lay_filled(random, WORDS, |random, words| {
        words[..HEAD].copy_from_slice(&head);
        fill_sums(random, &mut words[HEAD..MARKS]);
        if odds.wrong(random) {
            fill_wrong_marks(random, &mut words[MARKS..]);
        } else {
            fill_marks(random, right, sums, &mut words[MARKS..]);
        }
    });
    head
}

pub fn wz_feed(bench: &mut Bench) -> Result<Tally, Difference> {
    let mut buffers = ["run", "A", "B"].map(Fenced::new);
    bench.random_cases("wz_feed", |bench| feed(bench, &mut buffers))
}

fn feed(bench: &mut Bench, buffers: &mut [Fenced<u32>; 3]) -> Result<u64, Difference> {
    let random = &mut bench.random;
    let odds = Odds::new(random);
    let right = right_selector(random);
    let [na, nb, nc, _] = step_lengths(bench.rules, right[0]);
    let [run, a, b] = buffers;
    let head = lay_run(random, &odds, right, nc, run);
    let length = odds.length(random, na, &[nb, nc]);
    a.lay_filled(random, length, fill_words);
    let length = odds.length(random, nb, &[na, nc]);
    b.lay_filled(random, length, fill_words);
    ask_feed(bench, run, a, b, || {
        format!("run with kind, signs, mode, number {head:?} before")
    })
}

pub fn ask_feed(
    bench: &Bench,
    run: &mut Fenced<u32>,
    a: &Fenced<u32>,
    b: &Fenced<u32>,
    arguments: impl FnOnce() -> String,
) -> Result<u64, Difference> {
    let library = array_mut(run.library_mut());
    let library = bench.library.feed(library, a.library(), b.library());
    let rules = array_mut(run.rules_mut());
    let rules = bench.rules.feed(rules, a.rules(), b.rules());
    compare(library, rules, &[run, a, b], arguments)
}

pub fn wz_read(bench: &mut Bench) -> Result<Tally, Difference> {
    let mut run = Fenced::new("run");
    let mut d = Fenced::new("D");
    bench.random_cases("wz_read", |bench| read(bench, &mut run, &mut d))
}

fn read(bench: &mut Bench, run: &mut Fenced<u32>, d: &mut Fenced<u32>) -> Result<u64, Difference> {
    let random = &mut bench.random;
    let odds = Odds::new(random);
    let right = right_selector(random);
    let [na, nb, nc, _] = step_lengths(bench.rules, right[0]);
    let head = lay_run(random, &odds, right, nc, run);
    let length = odds.length(random, nc, &[na, nb, WORDS]);
    d.lay(random, length);
    ask_read(bench, run, d, || {
        format!("run with kind, signs, mode, number {head:?}")
    })
}

pub fn ask_read(
    bench: &Bench,
    run: &Fenced<u32>,
    d: &mut Fenced<u32>,
    arguments: impl FnOnce() -> String,
) -> Result<u64, Difference> {
    let library = array(run.library());
    let library = bench.library.read(library, d.library_mut());
    let rules = bench.rules.read(array(run.rules()), d.rules_mut());
    compare(library, rules, &[run, d], arguments)
}

pub fn wz_marks(bench: &mut Bench) -> Result<Tally, Difference> {
    let mut run = Fenced::new("run");
    let mut marks = Fenced::new("marks");
    bench.random_cases("wz_marks", |bench| read_marks(bench, &mut run, &mut marks))
}

fn read_marks(
    bench: &mut Bench,
    run: &mut Fenced<u32>,
    marks: &mut Fenced<u32>,
) -> Result<u64, Difference> {
    let random = &mut bench.random;
    let odds = Odds::new(random);
    let right = right_selector(random);
    let [na, nb, nc, _] = step_lengths(bench.rules, right[0]);
    let head = lay_run(random, &odds, right, nc, run);
    let length = odds.length(random, MARK_WORDS, &[na, nb, nc, WORDS]);
    marks.lay(random, length);
    ask_marks(bench, run, marks, || {
        format!("run with kind, signs, mode, number {head:?}")
    })
}

pub fn ask_marks(
    bench: &Bench,
    run: &Fenced<u32>,
    marks: &mut Fenced<u32>,
    arguments: impl FnOnce() -> String,
) -> Result<u64, Difference> {
    let library = array(run.library());
    let library = bench.library.marks(library, marks.library_mut());
    let rules = bench.rules.marks(array(run.rules()), marks.rules_mut());
    compare(library, rules, &[run, marks], arguments)
}
