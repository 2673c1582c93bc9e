//! Runs of many blocks, newly opened and fed in several orders. After each feed the run is what the
//! rules say, and at the end its sums and marks are what all its blocks come to.

use super::plan::{Course, Due, Plan};
use super::runs::{ask_feed, ask_marks, ask_read};
use super::{every_selector, Bench};
use crate::fence::{array_mut, compare, Fenced};
use crate::random::Random;
use crate::report::{shown, Difference, Tally};
use crate::rules::C;
use crate::run::{marked, HEAD, MARKS, MARK_WORDS, MAX_BLOCKS, WORDS};
use crate::step;
use crate::wazimroot::Calls;

/// Blocks of a short run.
const SHORT: usize = 30;
/// Feeds from one reading to the next.
const READINGS: usize = 16;
/// The runs of 4,096 blocks: kind, signs, mode, and which way the sums go.
const LONG: [([u32; 3], Course); 11] = [
    ([1, 0, 0], Course::Any),
    ([2, 1, 0], Course::Any),
    ([3, 0, 1], Course::Any),
    ([3, 0, 1], Course::Back),
    ([3, 2, 1], Course::Straight),
    ([4, 3, 1], Course::Straight),
    ([5, 0, 1], Course::Any),
    ([11, 0, 1], Course::Any),
    ([12, 1, 0], Course::Any),
    ([12, 1, 1], Course::Back),
    ([14, 0, 0], Course::Any),
];

/// The buffers of a run's calls.
struct Buffers {
    c: Fenced<u32>,
    run: Fenced<u32>,
    a: Fenced<u32>,
    b: Fenced<u32>,
    d: Fenced<u32>,
    marks: Fenced<u32>,
}

impl Buffers {
    fn new() -> Buffers {
        let names = ["C", "run", "A", "B", "D", "marks"];
        let [c, run, a, b, d, marks] = names.map(Fenced::new);
        Buffers {
            c,
            run,
            a,
            b,
            d,
            marks,
        }
    }

    fn open(&mut self, bench: &mut Bench, plan: &Plan) -> Result<u64, Difference> {
        let (c, run) = (&mut self.c, &mut self.run);
        let length = plan.start.len();
        c.lay_filled(&mut bench.random, length, |_, words| {
            words.copy_from_slice(&plan.start)
        });
        run.lay(&mut bench.random, WORDS);
        let library = array_mut(run.library_mut());
        let library = bench.library.open(plan.selector, c.library(), library);
        let rules = array_mut(run.rules_mut());
        let rules = bench.rules.open(plan.selector, c.rules(), rules);
        compare(library, rules, &[c, run], || "open".to_string())
    }

    fn feed(&mut self, bench: &mut Bench, block: &[Vec<u32>; 2]) -> Result<u64, Difference> {
        let (run, a, b) = (&mut self.run, &mut self.a, &mut self.b);
        for (buffer, words) in [&mut *a, &mut *b].into_iter().zip(block) {
            buffer.lay_filled(&mut bench.random, words.len(), |_, buffer| {
                buffer.copy_from_slice(words);
            });
        }
        ask_feed(bench, run, a, b, || "feed".to_string())
    }

    /// Reads the sums and the marks.
    fn read(
        &mut self,
        bench: &mut Bench,
        length: usize,
        tally: &mut Tally,
    ) -> Result<(), Difference> {
        let (run, d, marks) = (&self.run, &mut self.d, &mut self.marks);
        d.lay(&mut bench.random, length);
        tally.count(ask_read(bench, run, d, || "read".to_string())?);
        marks.lay(&mut bench.random, MARK_WORDS);
        tally.count(ask_marks(bench, run, marks, || "marks".to_string())?);
        Ok(())
    }

    /// Opens a run, feeds it in this order and reads it at times and at the end.
    fn all(
        &mut self,
        bench: &mut Bench,
        plan: &Plan,
        order: &[usize],
        tally: &mut Tally,
    ) -> Result<(), Difference> {
        tally.count(self.open(bench, plan)?);
        for (number, &block) in order.iter().enumerate() {
            if number % READINGS == 0 {
                self.read(bench, plan.start.len(), tally)?;
            }
            tally.count(self.feed(bench, &plan.blocks[block])?);
        }
        self.read(bench, plan.start.len(), tally)?;
        self.end(bench, plan, order)
    }

    /// The library's run, and the last D and marks, are what is due; the run has the number of the
    /// blocks.
    fn end(&self, bench: &Bench, plan: &Plan, order: &[usize]) -> Result<(), Difference> {
        let due = plan.due(&bench.rules.layouts, order);
        let run = self.run.library();
        let held = [&run[HEAD..][..plan.start.len()], &run[MARKS..]];
        let read = [self.d.library(), self.marks.library()];
        for [sums, marks] in [held, read] {
            as_due(bench, plan.selector, &due, sums, marks)?;
        }
        if run[3] as usize != order.len() {
            let text = format!("{} blocks fed, {} counted", order.len(), run[3]);
            return Err(Difference::new(text));
        }
        Ok(())
    }

    /// A full run takes no further block.
    fn full(&mut self, bench: &mut Bench, plan: &Plan) -> Result<u64, Difference> {
        match self.feed(bench, &plan.blocks[0])? {
            9 => Ok(9),
            other => Err(Difference::new(format!(
                "feed of a full run: {}",
                shown(other)
            ))),
        }
    }
}

/// At its place each sum is what its blocks come to, and marked where it is due. K12: "In a mode 1
/// run of an integer kind .. an unmarked sum equals its exact total".
fn as_due(
    bench: &Bench,
    [kind, _, mode]: [u32; 3],
    due: &[Due],
    sums: &[u32],
    marks: &[u32],
) -> Result<(), Difference> {
    let layout = bench.rules.layouts.of(kind, C);
    for (j, &word) in sums.iter().enumerate() {
        let place = step::place_of_word(layout, j);
        let (sum, marked, due) = (i64::from(word as i32), marked(marks, j), &due[place]);
        let exact = marked || i128::from(sum) == due.total || !step::clamps(kind, mode);
        if (sum, marked) != (due.sum, due.marked) || !exact {
            return Err(Difference::new(format!(
                "entry {place} of D ends as {sum}, marked {marked}; its blocks come to {due:?}"
            )));
        }
    }
    Ok(())
}

/// One plan fed in each of these orders: as it was made, reversed, shuffled.
fn orders(
    bench: &mut Bench,
    buffers: &mut Buffers,
    plan: &Plan,
    tally: &mut Tally,
    names: &[&str],
) -> Result<(), Difference> {
    for &name in names {
        let mut order: Vec<usize> = (0..plan.blocks.len()).collect();
        match name {
            "reversed" => order.reverse(),
            "shuffled" => bench.random.shuffle(&mut order),
            _ => {}
        }
        let within = |it: Difference| {
            let (selector, blocks) = (plan.selector, plan.blocks.len());
            it.within(&format!(
                "runs, kind, signs, mode {selector:?}, {blocks} blocks {name}"
            ))
        };
        buffers.all(bench, plan, &order, tally).map_err(within)?;
        if order.len() == MAX_BLOCKS as usize {
            tally.count(buffers.full(bench, plan).map_err(within)?);
        }
    }
    Ok(())
}

pub fn runs(bench: &mut Bench) -> Result<Tally, Difference> {
    bench.random = Random::named(bench.seed, "runs");
    let mut tally = Tally::new("runs");
    let mut buffers = Buffers::new();
    for selector in every_selector() {
        for course in [Course::Any, Course::Straight, Course::Back] {
            let plan = Plan::new(bench, selector, course, SHORT);
            let names = ["in order", "reversed", "shuffled"];
            orders(bench, &mut buffers, &plan, &mut tally, &names)?;
        }
    }
    for (selector, course) in LONG {
        let plan = Plan::new(bench, selector, course, MAX_BLOCKS as usize);
        orders(
            bench,
            &mut buffers,
            &plan,
            &mut tally,
            &["in order", "shuffled"],
        )?;
    }
    Ok(tally)
}
