//! The comparisons, call by call. Each lays a call's buffers, asks the library and the rules, and
//! compares all that came back. Those of a program make its files and compare what it prints.

pub mod fragments;
pub mod lengths;
mod logs;
pub mod manners;
pub mod marks;
pub mod orders;
pub mod pipes;
pub mod places;
mod plan;
pub mod probes;
pub mod products;
mod records;
pub mod replays;
pub mod runs;
pub mod scales;
mod sorts;
pub mod steps;
pub mod tables;
pub mod templates;
pub mod trips;

use crate::calls::Rules;
use crate::programs::Programs;
use crate::random::Random;
use crate::report::{Difference, Tally};
use crate::rules::{A, ARITHMETIC, B, C, ONE_BIT};
use crate::values::Odds;
use crate::wazimroot::Calls;

/// Both sides, and where the cases come from.
pub struct Bench<'a> {
    pub library: &'a dyn Calls,
    pub rules: &'a Rules,
    pub programs: &'a Programs,
    pub random: Random,
    pub seed: u64,
    /// Random cases a call.
    pub cases: u64,
}

/// Lengths of the warp buffers of A, B, C and D.
pub fn step_lengths(rules: &Rules, kind: u32) -> [usize; 4] {
    [A, B, C, C].map(|role| rules.layouts.of(kind, role).buffer_length())
}

/// A selector of a step or run with which nothing is wrong: kind, signs, mode.
pub fn right_selector(random: &mut Random) -> [u32; 3] {
    let kind = random.pick(&ARITHMETIC);
    let one_bit = ONE_BIT.contains(&kind);
    let signs = if one_bit { 0 } else { random.small(4) };
    [kind, signs, random.small(2)]
}

/// The right one, wrong where the odds say so.
pub fn selector(random: &mut Random, odds: &Odds, right: [u32; 3]) -> [u32; 3] {
    right.map(|number| odds.number(random, number))
}

/// Every selector with which nothing is wrong: kind, signs, mode.
pub fn every_selector() -> Vec<[u32; 3]> {
    let mut selectors = Vec::new();
    for kind in ARITHMETIC {
        let most = if ONE_BIT.contains(&kind) { 0 } else { 3 };
        for signs in 0..=most {
            selectors.push([kind, signs, 0]);
            selectors.push([kind, signs, 1]);
        }
    }
    selectors
}

impl Bench<'_> {
    /// Runs the random cases of one call.
    fn random_cases(
        &mut self,
        name: &'static str,
        mut case: impl FnMut(&mut Bench) -> Result<u64, Difference>,
    ) -> Result<Tally, Difference> {
        self.random = Random::named(self.seed, name);
        let mut tally = Tally::new(name);
        for number in 0..self.cases {
            let answer = case(self).map_err(|it| it.within(&format!("{name}, case {number}")))?;
            tally.count(answer);
        }
        Ok(tally)
    }
}
