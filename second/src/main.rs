//! The second program: the rules once more, by other means, compared with the library through its
//! C interface, and with what the programs print.

#![deny(unsafe_code)]

mod bits;
mod calls;
mod compare;
mod fence;
mod figures;
mod folder;
mod layout;
mod programs;
mod random;
mod refusals;
mod replay;
mod report;
mod rules;
mod run;
mod running;
mod scale;
mod step;
mod template;
mod values;
#[allow(unsafe_code)]
#[path = "../../include/wazimroot.rs"]
mod wazimroot;

use calls::Rules;
use compare::{
    fragments, lengths, manners, marks, orders, pipes, places, probes, products, replays, runs,
    scales, steps, tables, templates, trips, Bench,
};
use programs::Programs;
use random::Random;
use report::{Difference, Tally};
use std::process::exit;
use wazimroot::LIBRARY;

const CASES: u64 = 100_000;
const SEED: u64 = 20_260_101;

/// The part of the comparisons that this process makes, dealt out like cards.
struct Part {
    number: usize,
    of: usize,
}

impl Part {
    /// From `1/2`, `2/2`.
    fn parse(text: &str) -> Option<Part> {
        let (number, of) = text.split_once('/')?;
        let (number, of) = (number.parse().ok()?, of.parse().ok()?);
        (1..=of).contains(&number).then_some(Part { number, of })
    }

    fn has(&self, comparison: usize) -> bool {
        comparison % self.of == self.number - 1
    }
}

/// The part, the programs, random cases a call, and the seed.
fn arguments() -> Option<(Part, Programs, u64, u64)> {
    let arguments: Vec<String> = std::env::args().skip(1).collect();
    if arguments.len() > 4 {
        return None;
    }
    let number = |at: usize, default: u64| match arguments.get(at) {
        Some(argument) => argument.parse().ok(),
        None => Some(default),
    };
    let part = Part::parse(arguments.first()?)?;
    let programs = Programs::parse(arguments.get(1)?)?;
    Some((part, programs, number(2, CASES)?, number(3, SEED)?))
}

type Comparison = fn(&mut Bench) -> Result<Tally, Difference>;

/// In such an order that the long ones fall to both parts of two.
const COMPARISONS: [Comparison; 31] = [
    |bench| figures::figures(bench.library, bench.rules),
    places::wz_place,
    places::wz_find,
    fragments::wz_unpack,
    fragments::wz_pack,
    steps::wz_step,
    steps::wz_plain_step,
    steps::extremes,
    products::products,
    runs::wz_open,
    runs::wz_feed,
    runs::wz_read,
    runs::wz_marks,
    marks::single,
    marks::limits,
    scales::wz_scale,
    scales::nans,
    templates::wz_template_read,
    templates::wz_template_write,
    lengths::long_buffers,
    trips::round_trips,
    orders::runs,
    probes::probes,
    tables::tables,
    replays::random_files,
    replays::single_places,
    replays::single_bytes,
    replays::heads,
    manners::arguments,
    pipes::ends,
    pipes::pipes,
];

/// Prints a line a comparison; gives how many cases were compared.
fn compare(part: &Part, programs: &Programs, cases: u64, seed: u64) -> Result<u64, Difference> {
    let rules = Rules::new()?;
    let mut bench = Bench {
        library: &LIBRARY,
        rules: &rules,
        programs,
        random: Random::new(seed),
        seed,
        cases,
    };
    let mut compared = 0;
    for (_, comparison) in COMPARISONS.iter().enumerate().filter(|(i, _)| part.has(*i)) {
        let tally = comparison(&mut bench)?;
        println!("{tally}");
        compared += tally.cases();
    }
    Ok(compared)
}

fn main() {
    let (part, programs, cases, seed) = arguments().unwrap_or_else(|| {
        eprintln!("usage: second PART/PARTS PROGRAMS [CASES [SEED]]");
        exit(2)
    });
    let Part { number, of } = part;
    println!("second: part {number} of {of}, {cases} random cases a call, seed {seed}");
    match compare(&part, &programs, cases, seed) {
        Ok(compared) => println!("second: {compared} comparisons, no difference"),
        Err(difference) => {
            println!("difference: {difference}");
            exit(1)
        }
    }
}
