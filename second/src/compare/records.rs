//! Step records made for a verdict.

use super::{every_selector, Bench};
use crate::layout::Layouts;
use crate::random::Random;
use crate::replay::{self, Record, Verdict, PARTS, RECORD, RESERVED};
use crate::rules::{A, ARITHMETIC, B, C};
use crate::step;
use crate::values::{fill_sums, fill_words};

pub struct Maker<'a> {
    pub layouts: &'a Layouts,
    pub random: &'a mut Random,
}

/// A record, and the verdict that it was made for; none where that is as it comes.
pub type Made = (Record, Option<Verdict>);

/// The arithmetic kinds that leave a tail unused.
pub const TAILS: [u32; 6] = [1, 2, 4, 11, 12, 13];
/// Those whose words of D are in another order than its places, all in the same.
pub const HALVES: [u32; 6] = [2, 3, 4, 5, 13, 14];

/// A way in which a head breaks 4, for an arithmetic kind.
pub type Way = fn(&mut Random, u32) -> [u32; 3];

/// Every head with which nothing is wrong, the plain step's among them.
pub fn every_head() -> Vec<[u32; 3]> {
    let plain = ARITHMETIC.map(|kind| [kind, 0, 255]);
    every_selector().into_iter().chain(plain).collect()
}

impl<'a> Maker<'a> {
    pub fn of(bench: &'a mut Bench) -> Maker<'a> {
        Maker {
            layouts: &bench.rules.layouts,
            random: &mut bench.random,
        }
    }

    /// A head of one of these kinds with which nothing is wrong.
    pub fn head_of(&mut self, kinds: &[u32]) -> [u32; 3] {
        let mut heads = every_head();
        heads.retain(|[kind, ..]| kinds.contains(kind));
        self.random.pick(&heads)
    }

    /// A record with which nothing is wrong.
    pub fn right(&mut self, head: [u32; 3]) -> Record {
        let length = |role| self.layouts.of(head[0], role).buffer_length();
        let mut parts = [A, B, C, C].map(|role| vec![0; length(role)]);
        let [a, b, c, d] = &mut parts;
        fill_words(self.random, a);
        fill_words(self.random, b);
        fill_sums(self.random, c);
        step::step(self.layouts, replay::asked(head), a, b, c, d);
        replay::record(head, &parts)
    }

    /// A record of one of these kinds, wrong at places of D that are picked of so many.
    pub fn wrong(&mut self, kinds: &[u32], pick: fn(&mut Maker, usize) -> Vec<usize>) -> Made {
        let head = self.head_of(kinds);
        let places = pick(self, self.layouts.of(head[0], C).matrix_length());
        let record = self.right(head);
        self.spoilt(record, &places)
    }

    /// A right record, made wrong at these places of D, row-major and ascending.
    pub fn spoilt(&mut self, mut record: Record, places: &[usize]) -> Made {
        let [kind, ..] = replay::head(&record);
        for &place in places {
            let [any, bit] = [self.random.draw() as u32 | 1, 1 << self.random.below(32)];
            let change = self.random.pick(&[any, bit]).to_le_bytes();
            let at = PARTS[3].start + 4 * self.word(kind, place);
            let word = record[at..].iter_mut().zip(change);
            word.for_each(|(byte, change)| *byte ^= change);
        }
        let due = replay::wrong(self.layouts, kind, places[0]);
        (record, Some(due))
    }

    /// The word of D that holds a place.
    fn word(&self, kind: u32, place: usize) -> usize {
        let layout = self.layouts.of(kind, C);
        let mut words = 0..layout.buffer_length();
        let word = words.find(|&word| step::place_of_word(layout, word) == place);
        word.expect("a place of D")
    }

    /// Two places, of which the second's word comes before the first's.
    pub fn turned_places(&mut self, all: usize) -> Vec<usize> {
        loop {
            let [first, second] = [self.random.below(all), self.random.below(all)];
            if first < second && self.word(HALVES[0], first) > self.word(HALVES[0], second) {
                return vec![first, second];
            }
        }
    }

    pub fn unknown_kind(&mut self) -> u32 {
        let over = 15 + self.random.small(241);
        self.random.pick(&[0, 15, over])
    }

    pub fn float_kind(&mut self) -> u32 {
        6 + self.random.small(5)
    }

    /// A record of a kind, its reserved bytes zero and all others random, or zero too.
    pub fn any_body(&mut self, kind: u32) -> Record {
        let mut record = [0; RECORD];
        if !self.random.one_in(4) {
            self.random.fill(&mut record);
        }
        record[RESERVED].fill(0);
        record[0] = kind as u8;
        record
    }

    /// A record whose selectors break 4 in this way, and nothing else is wrong.
    pub fn selectors(&mut self, way: Way) -> Made {
        let kind = self.random.pick(&ARITHMETIC);
        let head = way(self.random, kind);
        let mode = self.random.small(2);
        let mut record = self.right([head[0], 0, mode]);
        replay::put_head(&mut record, head);
        (record, Some(Verdict::Refused(4)))
    }

    fn put_not_zero(&mut self, record: &mut Record, at: usize) {
        let any = 1 + self.random.below(255) as u8;
        record[at] = self.random.pick(&[1, 128, any]);
    }

    pub fn reserved(&mut self, mut record: Record) -> Made {
        let at = RESERVED.start + self.random.below(RESERVED.len());
        self.put_not_zero(&mut record, at);
        (record, Some(Verdict::Refused(11)))
    }

    /// The first, the last or any byte of a tail of A, B, C or D, of which the kind leaves one, is
    /// not zero.
    pub fn tail(&mut self, mut record: Record) -> Made {
        let [kind, ..] = replay::head(&record);
        let tail = loop {
            let part = self.random.below(PARTS.len());
            let [_, tail] = replay::used_and_tail(self.layouts, kind, part);
            if !tail.is_empty() {
                break tail;
            }
        };
        let any = self.random.below(tail.len());
        let at = tail.start + self.random.pick(&[0, tail.len() - 1, any]);
        self.put_not_zero(&mut record, at);
        (record, Some(Verdict::Refused(11)))
    }
}
