//! A of kind 5 by the library's answers alone, laid out as two tables of 1,024 entries: by lane and
//! element 64 times row plus column, which is the rules', and by row and column 32 times lane plus
//! element. Each undoes the other.

use super::Bench;
use crate::report::{shown, Difference, Tally};
use crate::rules;
use crate::wazimroot::Calls;

const KIND: u32 = 5;
const ENTRIES: u32 = 1_024;
const ELEMENTS: u32 = 32;
const COLUMNS: u32 = 64;

/// An entry, or the refusal.
fn place_entry(calls: &dyn Calls, at: u32) -> Result<u32, u64> {
    let mut out = [0; 4];
    match calls.place(KIND, 0, at / ELEMENTS, at % ELEMENTS, &mut out) {
        0 => Ok(out[0] * COLUMNS + out[1]),
        refused => Err(refused),
    }
}

fn holder_entry(calls: &dyn Calls, at: u32) -> Result<u32, u64> {
    let mut out = [0; 2];
    match calls.find(KIND, 0, at / COLUMNS, at % COLUMNS, &mut out) {
        0 => Ok(out[0] * ELEMENTS + out[1]),
        refused => Err(refused),
    }
}

fn one(calls: &dyn Calls, at: u32) -> Result<[(&'static str, u32, u32); 3], u64> {
    let (row, column) = rules::place(KIND, 0, at / ELEMENTS, at % ELEMENTS);
    let place = place_entry(calls, at)?;
    Ok([
        ("place", place, row * COLUMNS + column),
        ("holder of place", holder_entry(calls, place)?, at),
        (
            "place of holder",
            place_entry(calls, holder_entry(calls, at)?)?,
            at,
        ),
    ])
}

pub fn tables(bench: &mut Bench) -> Result<Tally, Difference> {
    let mut tally = Tally::new("tables");
    for at in 0..ENTRIES {
        let refused = |answer| Difference::new(format!("tables, entry {at}: {}", shown(answer)));
        for (name, library, rules) in one(bench.library, at).map_err(refused)? {
            if library != rules {
                let numbers = format!("library {library}, rules {rules}");
                return Err(Difference::new(format!("tables, {name} {at}: {numbers}")));
            }
            tally.count(0);
        }
    }
    Ok(tally)
}
