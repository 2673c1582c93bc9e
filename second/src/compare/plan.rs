//! What a run of many blocks is made of, and what its sums and marks come to.

use super::{step_lengths, Bench};
use crate::layout::{Layout, Layouts};
use crate::random::Random;
use crate::rules::{A, B};
use crate::step::{self, SUMS};
use crate::{bits, values};

/// Which way the sums go.
#[derive(Clone, Copy)]
pub enum Course {
    /// As it comes.
    Any,
    /// What is added at a place has one sign.
    Straight,
    /// What is added at a place has one sign in the first half of the blocks and the other in the
    /// second, where A or B is signed.
    Back,
}

/// What a place comes to.
#[derive(Debug)]
pub struct Due {
    pub sum: i64,
    pub marked: bool,
    /// The exact total.
    pub total: i128,
}

/// All that a run is made of.
pub struct Plan {
    /// Kind, signs, mode.
    pub selector: [u32; 3],
    /// C's words on opening.
    pub start: Vec<u32>,
    /// The words of A and of B.
    pub blocks: Vec<[Vec<u32>; 2]>,
    /// What each block adds at each place, row-major.
    contributions: Vec<[i128; SUMS]>,
}

impl Plan {
    pub fn new(bench: &mut Bench, selector: [u32; 3], course: Course, blocks: usize) -> Plan {
        let layouts = &bench.rules.layouts;
        let [na, nb, nc, _] = step_lengths(bench.rules, selector[0]);
        let random = &mut bench.random;
        let mut plan = Plan {
            selector,
            start: (0..nc).map(|_| values::sum_word(random)).collect(),
            blocks: Vec::new(),
            contributions: Vec::new(),
        };
        for block in 0..blocks {
            let [a, b] = match course {
                Course::Any => [na, nb].map(|length| any_words(random, length)),
                Course::Straight => one_signed_block(layouts, random, selector, false),
                Course::Back => one_signed_block(layouts, random, selector, block >= blocks / 2),
            };
            let added = step::contributions(layouts, selector, &a, &b);
            plan.contributions.push(added);
            plan.blocks.push([a, b]);
        }
        plan
    }

    /// What each place comes to after all blocks in this order, row-major.
    pub fn due(&self, layouts: &Layouts, order: &[usize]) -> Vec<Due> {
        let [kind, _, mode] = self.selector;
        let clamps = step::clamps(kind, mode);
        let starts = step::sums(layouts, kind, &self.start);
        let due = |(place, start)| {
            let parts = order.iter().map(|&block| self.contributions[block][place]);
            due_at(clamps, start, &parts.collect::<Vec<i128>>())
        };
        starts.into_iter().enumerate().map(due).collect()
    }
}

/// Where the run wraps, the exact total wrapped; where it clamps, the exact total clamped at a
/// place whose contributions have one sign, and at another the total clamped after each block. A
/// mark where something was clamped.
fn due_at(clamps: bool, start: i64, parts: &[i128]) -> Due {
    let total = i128::from(start) + parts.iter().sum::<i128>();
    let one_signed = parts.iter().all(|&part| part >= 0) || parts.iter().all(|&part| part <= 0);
    if !clamps || one_signed {
        let (sum, marked) = (step::finish(clamps, total), clamps && step::outside(total));
        return Due { sum, marked, total };
    }
    let (mut sum, mut marked) = (start, false);
    for part in parts {
        let exact = i128::from(sum) + part;
        sum = step::finish(true, exact);
        marked |= step::outside(exact);
    }
    Due { sum, marked, total }
}

fn any_words(random: &mut Random, length: usize) -> Vec<u32> {
    let mut words = vec![0; length];
    values::fill_words(random, &mut words);
    words
}

/// The words of A and of B that add a number of one sign at each place, or when turned one of the
/// other: A's rows are turned where A is signed, otherwise B's columns.
fn one_signed_block(
    layouts: &Layouts,
    random: &mut Random,
    selector: [u32; 3],
    turned: bool,
) -> [Vec<u32>; 2] {
    let [kind, signs, _] = selector;
    let turning = if step::signed(kind, signs, A) { A } else { B };
    [A, B].map(|role| {
        let below = if turned && role == turning { 0 } else { 1 };
        let signed = step::signed(kind, signs, role);
        one_signed_words(
            layouts.of(kind, role),
            random,
            role,
            signed.then_some(below),
        )
    })
}

/// Words whose numbers are below 0 throughout every second row of A or column of B, from row or
/// column `below` on, and not below 0 elsewhere; with none they are unsigned.
fn one_signed_words(
    layout: &Layout,
    random: &mut Random,
    role: u32,
    below: Option<usize>,
) -> Vec<u32> {
    let columns = layout.columns as usize;
    let all = 1u64 << layout.bits;
    let mut matrix = vec![0; layout.matrix_length()];
    for (at, entry) in matrix.iter_mut().enumerate() {
        let line = if role == A {
            at / columns
        } else {
            at % columns
        };
        *entry = match below {
            None => random.draw() % all,
            Some(below) if line % 2 == below => all / 2 + random.draw() % (all / 2),
            Some(_) => random.draw() % (all / 2),
        };
    }
    let mut words = vec![0; layout.buffer_length()];
    bits::pack(layout, &matrix, &mut words);
    words
}
