//! K12's marks: each by itself in a run made up by hand, and those that a feed sets where sums come
//! to their limits.

use super::runs::{ask_feed, ask_marks, ask_read, fill_marks};
use super::{every_selector, step_lengths, Bench};
use crate::fence::Fenced;
use crate::random::Random;
use crate::report::{Difference, Tally};
use crate::rules::C;
use crate::run::{marked, set_mark, HEAD, MARKS, MARK_WORDS, MAX_BLOCKS, WORDS};
use crate::step::{self, SUMS};
use crate::values::{fill_sums, fill_words};

/// The buffers of a run's calls but opening: run, A, B, D, marks.
type Buffers = [Fenced<u32>; 5];

fn buffers() -> Buffers {
    ["run", "A", "B", "D", "marks"].map(Fenced::new)
}

/// Feeds the run, then reads its sums and its marks.
fn ask(bench: &Bench, buffers: &mut Buffers, tally: &mut Tally) -> Result<(), Difference> {
    let [run, a, b, d, marks] = buffers;
    tally.count(ask_feed(bench, run, a, b, || "feed".to_string())?);
    tally.count(ask_read(bench, run, d, || "read".to_string())?);
    tally.count(ask_marks(bench, run, marks, || "marks".to_string())?);
    Ok(())
}

/// Every mark by itself, in a run of every kind, signs and mode, full and not, with buffers of the
/// right lengths and of wrong ones: 10 comes before 9 and 5.
pub fn single(bench: &mut Bench) -> Result<Tally, Difference> {
    let name = "single marks";
    bench.random = Random::named(bench.seed, name);
    let mut tally = Tally::new(name);
    let mut buffers = buffers();
    for selector in every_selector() {
        for j in 0..SUMS {
            for (number, too_long) in [(0, 0), (0, 1), (MAX_BLOCKS, 0), (MAX_BLOCKS, 1)] {
                lay_single(bench, selector, number, j, &mut buffers[0]);
                lay_others(bench, selector[0], too_long, &mut buffers);
                ask(bench, &mut buffers, &mut tally).map_err(|it| {
                    let run = format!("kind, signs, mode {selector:?}, number {number}");
                    it.within(&format!("{name}, {run}, mark {j}"))
                })?;
            }
        }
    }
    Ok(tally)
}

fn lay_single(bench: &mut Bench, selector: [u32; 3], number: u32, j: usize, run: &mut Fenced<u32>) {
    run.lay_filled(&mut bench.random, WORDS, |random, words| {
        lay_head(selector, number, words);
        fill_sums(random, &mut words[HEAD..MARKS]);
        words[MARKS..].fill(0);
        set_mark(&mut words[MARKS..], j);
    });
}

fn lay_head([kind, signs, mode]: [u32; 3], number: u32, words: &mut [u32]) {
    words[..HEAD].copy_from_slice(&[kind, signs, mode, number]);
}

/// All but the run, each by so many words too long.
fn lay_others(bench: &mut Bench, kind: u32, too_long: usize, buffers: &mut Buffers) {
    let [na, nb, nc, _] = step_lengths(bench.rules, kind);
    for (buffer, right) in buffers[1..].iter_mut().zip([na, nb, nc, MARK_WORDS]) {
        buffer.lay_filled(&mut bench.random, right + too_long, fill_words);
    }
}

/// Random cases of a call for each feed of each kind, signs and mode.
const SHARE: u64 = 1_000;

/// Exact results of a feed: the limits, one less, and one more.
const RESULTS: [i128; 6] = [
    -2_147_483_649,
    -2_147_483_648,
    -2_147_483_647,
    2_147_483_646,
    2_147_483_647,
    2_147_483_648,
];

/// Feeds whose exact result is at each place one of these: a mark that was not there comes up
/// exactly where the run clamps and the result is outside.
pub fn limits(bench: &mut Bench) -> Result<Tally, Difference> {
    let name = "sums at the limits";
    bench.random = Random::named(bench.seed, name);
    let mut tally = Tally::new(name);
    let mut buffers = buffers();
    for _ in 0..bench.cases.div_ceil(SHARE) {
        for selector in every_selector() {
            at_limits(bench, selector, &mut buffers, &mut tally)
                .map_err(|it| it.within(&format!("{name}, kind, signs, mode {selector:?}")))?;
        }
    }
    Ok(tally)
}

fn at_limits(
    bench: &mut Bench,
    selector: [u32; 3],
    buffers: &mut Buffers,
    tally: &mut Tally,
) -> Result<(), Difference> {
    lay_others(bench, selector[0], 0, buffers);
    let results = results(bench, selector, buffers);
    let before = lay_before(bench, selector, &results, buffers);
    ask(bench, buffers, tally)?;
    let after = buffers[4].library();
    let clamps = step::clamps(selector[0], selector[2]);
    for (j, &(_, exact)) in results.iter().enumerate() {
        let due = marked(&before, j) || clamps && (exact == RESULTS[0] || exact == RESULTS[5]);
        if marked(after, j) != due {
            let text = format!("mark {j} of {before:x?}, then {exact}, is {}", !due);
            return Err(Difference::new(text));
        }
    }
    Ok(())
}

/// For each sum word a sum before the feed and the exact result that it then has.
fn results(bench: &mut Bench, selector: [u32; 3], buffers: &Buffers) -> Vec<(u32, i128)> {
    let layouts = &bench.rules.layouts;
    let [_, a, b, d, _] = buffers;
    let added = step::contributions(layouts, selector, a.rules(), b.rules());
    let layout = layouts.of(selector[0], C);
    let one = |j| {
        let added = added[step::place_of_word(layout, j)];
        let sum = |exact: i128| Some((i32::try_from(exact - added).ok()? as u32, exact));
        let possible: Vec<(u32, i128)> = RESULTS.into_iter().filter_map(sum).collect();
        bench.random.pick(&possible)
    };
    (0..d.rules().len()).map(one).collect()
}

/// Lays a run with these sums; gives the marks that it has.
fn lay_before(
    bench: &mut Bench,
    selector: [u32; 3],
    results: &[(u32, i128)],
    buffers: &mut Buffers,
) -> Vec<u32> {
    let run = &mut buffers[0];
    run.lay_filled(&mut bench.random, WORDS, |random, words| {
        lay_head(selector, random.small(MAX_BLOCKS), words);
        let (used, unused) = words[HEAD..MARKS].split_at_mut(results.len());
        used.iter_mut()
            .zip(results)
            .for_each(|(word, &(sum, _))| *word = sum);
        fill_words(random, unused);
        fill_marks(random, selector, results.len(), &mut words[MARKS..]);
    });
    run.rules()[MARKS..].to_vec()
}
