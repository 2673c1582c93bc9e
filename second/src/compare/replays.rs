//! What `replay` prints for files of step records.

use super::records::{every_head, Made, Maker};
use super::sorts::SORTS;
use super::{logs, Bench};
use crate::random::Random;
use crate::replay::{self, Verdict, RECORD};
use crate::report::{Difference, Tally};
use crate::rules::{ARITHMETIC, C};

/// Records of a random file.
const RECORDS: usize = 10_000;
/// Random cases of a call for each random file.
const SHARE: u64 = 50_000;

/// Bytes that are written at once.
const PIECES: [usize; 6] = [1_000, 1_800, 1_801, 4_096, 1 << 16, 1 << 20];

/// A sort of records, and one of it.
type Sorted = (&'static str, Made);

pub fn random_files(bench: &mut Bench) -> Result<Tally, Difference> {
    let name = "replay, random files";
    bench.random = Random::named(bench.seed, name);
    let mut tally = Tally::new(name);
    let mut seen = [false; SORTS.len()];
    for number in 0..bench.cases.div_ceil(SHARE).max(1) {
        let mut one = |_| {
            let (sort, made) = logs::any(bench);
            seen[sort] = true;
            (SORTS[sort].0, made)
        };
        let records: Vec<Sorted> = (0..RECORDS).map(&mut one).collect();
        compare(bench, &records, &mut tally)
            .map_err(|it| it.within(&format!("{name}, file {number}")))?;
    }
    if seen.contains(&false) || !tally.has_verdicts(&[1, 3, 4, 11]) {
        let text = format!("{name}: a sort or a verdict is missing in {tally}");
        return Err(Difference::new(text));
    }
    Ok(tally)
}

/// Every head with which nothing is wrong, on a right record and on one that is wrong at each place
/// by itself.
pub fn single_places(bench: &mut Bench) -> Result<Tally, Difference> {
    let name = "replay, single places";
    bench.random = Random::named(bench.seed, name);
    let mut tally = Tally::new(name);
    let mut records = Vec::new();
    for head in every_head() {
        let mut maker = Maker::of(bench);
        let right = maker.right(head);
        records.push(("nothing wrong", (right, Some(Verdict::Ok))));
        for place in 0..maker.layouts.of(head[0], C).matrix_length() {
            records.push(("one place wrong", maker.spoilt(right, &[place])));
        }
    }
    compare(bench, &records, &mut tally).map_err(|it| it.within(name))?;
    Ok(tally)
}

/// Every byte of a right record by itself is another, in every arithmetic kind.
pub fn single_bytes(bench: &mut Bench) -> Result<Tally, Difference> {
    let name = "replay, single bytes";
    bench.random = Random::named(bench.seed, name);
    let mut tally = Tally::new(name);
    for kind in ARITHMETIC {
        let mut maker = Maker::of(bench);
        let head = maker.head_of(&[kind]);
        let right = maker.right(head);
        let one = |at| {
            let mut record = right;
            record[at] ^= 1 + maker.random.below(255) as u8;
            ("one byte another", (record, None))
        };
        let records: Vec<Sorted> = (0..RECORD).map(one).collect();
        compare(bench, &records, &mut tally)
            .map_err(|it| it.within(&format!("{name}, kind, signs, mode {head:?}")))?;
    }
    Ok(tally)
}

/// Bytes at the limits of signs and modes, and far from them.
const SIGNS: [u32; 8] = [0, 1, 2, 3, 4, 5, 128, 255];
const MODES: [u32; 9] = [0, 1, 2, 3, 127, 128, 253, 254, 255];

/// Every kind with these signs and modes, and every signs and every mode with the arithmetic kinds,
/// in records that are zero behind their heads: what is not refused is right.
pub fn heads(bench: &mut Bench) -> Result<Tally, Difference> {
    let name = "replay, heads";
    bench.random = Random::named(bench.seed, name);
    let mut tally = Tally::new(name);
    let all: Vec<u32> = (0..=255).collect();
    let lists: [[&[u32]; 3]; 3] = [
        [&all, &SIGNS, &MODES],
        [&ARITHMETIC, &all, &MODES],
        [&ARITHMETIC, &SIGNS, &all],
    ];
    for [kinds, signs, modes] in lists {
        let mut records = Vec::new();
        for &kind in kinds {
            for &signs in signs {
                for &mode in modes {
                    let mut record = [0; RECORD];
                    replay::put_head(&mut record, [kind, signs, mode]);
                    records.push(("zero behind its head", (record, None)));
                }
            }
        }
        compare(bench, &records, &mut tally).map_err(|it| it.within(name))?;
    }
    Ok(tally)
}

/// The program prints what the rules say of these records, and they what each was made for.
fn compare(bench: &mut Bench, records: &[Sorted], tally: &mut Tally) -> Result<(), Difference> {
    let shown = |number: usize| match records.get(number) {
        Some((sort, (record, _))) => {
            let head = replay::head(record);
            format!("record {number}, {sort}, kind, signs, mode {head:?}")
        }
        None => "behind the last record".to_string(),
    };
    let mut text = String::new();
    for (number, (_, (record, due))) in records.iter().enumerate() {
        let verdict = replay::verdict(&bench.rules.layouts, record);
        if due.unwrap_or(verdict) != verdict {
            let text = format!("the rules: made for {due:?}, and is {verdict:?}");
            return Err(Difference::new(text).within(&shown(number)));
        }
        text += &replay::line(number, verdict);
        tally.count_verdict(verdict);
    }
    let bytes = records.iter().flat_map(|(_, (record, _))| *record);
    let bytes: Vec<u8> = bytes.collect();
    let at_once = bench.random.pick(&PIECES);
    let printed = bench.programs.piped("replay", &bytes, at_once)?;
    let compared = printed.compare(text.as_bytes());
    match printed.first_difference(text.as_bytes()) {
        Some(line) => compared.map_err(|it| it.within(&shown(line))),
        None => compared,
    }
}
