//! wz_place and wz_find, for every small number and some great ones.

use super::Bench;
use crate::fence::{array_mut, compare, Fenced};
use crate::random::Random;
use crate::report::{Difference, Tally};
use crate::wazimroot::Calls;

const GREAT_KINDS: [u32; 8] = [255, 256, 257, 266, 65_537, 1 << 31, (1 << 31) + 3, u32::MAX];
const GREAT_ROLES: [u32; 5] = [256, 257, 65_536, 1 << 31, u32::MAX];
const GREAT_PLACES: [u32; 8] = [
    255,
    256,
    257,
    65_536,
    1 << 30,
    1 << 31,
    (1 << 31) + 1,
    u32::MAX,
];

/// Every matrix has no row or no column of these.
const FAR: std::ops::Range<u32> = 24..255;

/// A call, what its four numbers are, and itself.
struct Call {
    name: &'static str,
    numbers: &'static str,
    /// From 0 to here are the third and the fourth number.
    last: [u32; 2],
    /// Whether these two are outside like thousands of others, which need not all be asked.
    one_of_many: fn(u32, u32) -> bool,
    /// How many numbers it writes.
    written: usize,
    ask: fn(&dyn Calls, [u32; 4], &mut [u32]) -> u64,
}

const PLACE: Call = Call {
    name: "wz_place",
    numbers: "kind, role, lane, element",
    last: [40, 140],
    one_of_many: |_, _| false,
    written: 4,
    ask: |calls, [kind, role, lane, element], out| {
        calls.place(kind, role, lane, element, array_mut(out))
    },
};

const FIND: Call = Call {
    name: "wz_find",
    numbers: "kind, role, row, column",
    last: [260, 260],
    one_of_many: |row, column| FAR.contains(&row) && FAR.contains(&column),
    written: 2,
    ask: |calls, [kind, role, row, column], out| {
        calls.find(kind, role, row, column, array_mut(out))
    },
};

pub fn wz_place(bench: &mut Bench) -> Result<Tally, Difference> {
    every(bench, &PLACE)
}

pub fn wz_find(bench: &mut Bench) -> Result<Tally, Difference> {
    every(bench, &FIND)
}

/// From 0 to `last`, then the great ones.
fn range(last: u32, great: &[u32]) -> Vec<u32> {
    (0..=last).chain(great.iter().copied()).collect()
}

/// Asks for all numbers.
fn every(bench: &mut Bench, call: &Call) -> Result<Tally, Difference> {
    bench.random = Random::named(bench.seed, call.name);
    let mut tally = Tally::new(call.name);
    let mut out = Fenced::new("out");
    let [third_last, fourth_last] = call.last;
    let fourth = range(fourth_last, &GREAT_PLACES);
    for kind in range(16, &GREAT_KINDS) {
        for role in range(4, &GREAT_ROLES) {
            for third in range(third_last, &GREAT_PLACES) {
                out.lay(&mut bench.random, call.written);
                for &fourth in &fourth {
                    if (call.one_of_many)(third, fourth) {
                        continue;
                    }
                    let answer = one(bench, &mut out, call, [kind, role, third, fourth]);
                    tally.count(answer.map_err(|it| it.within(call.name))?);
                }
            }
        }
    }
    Ok(tally)
}

fn one(
    bench: &mut Bench,
    out: &mut Fenced<u32>,
    call: &Call,
    numbers: [u32; 4],
) -> Result<u64, Difference> {
    out.refill(|words| bench.random.fill(words));
    let library = (call.ask)(bench.library, numbers, out.library_mut());
    let rules = (call.ask)(bench.rules, numbers, out.rules_mut());
    compare(library, rules, &[&*out], || {
        format!("{} {numbers:?}", call.numbers)
    })
}
