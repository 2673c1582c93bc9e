//! Round trips through the library alone: what was packed unpacks to itself, and the other way
//! about.

use super::templates::{RECORD, WORDS};
use super::Bench;
use crate::random::{Random, Word};
use crate::report::{shown, Difference, Tally};
use crate::rules::KINDS;
use crate::values::{fill_matrix, fill_words};

/// Random cases of a call for each round trip of each kind and role.
const SHARE: u64 = 200;

/// Both calls were accepted and the end is the beginning.
fn whole<T: Word>(answers: [u64; 2], start: &[T], end: &[T]) -> Result<u64, Difference> {
    for answer in answers {
        if answer != 0 {
            return Err(Difference::new(format!("library {}", shown(answer))));
        }
    }
    match start.iter().zip(end).position(|(start, end)| start != end) {
        None => Ok(0),
        Some(at) => {
            let (start, end) = (start[at], end[at]);
            let text = format!("word {at} went as {start:#x} and came back as {end:#x}");
            Err(Difference::new(text))
        }
    }
}

/// Matrix to words and back.
fn matrix_trip(bench: &mut Bench, kind: u32, role: u32) -> Result<u64, Difference> {
    let layout = bench.rules.layouts.of(kind, role);
    let mut matrix = vec![0; layout.matrix_length()];
    fill_matrix(&mut bench.random, &mut matrix, layout.bits);
    let mut words = vec![0; layout.buffer_length()];
    let mut back = vec![!0; layout.matrix_length()];
    bench.random.fill(&mut words);
    let there = bench.library.pack(kind, role, &matrix, &mut words);
    let again = bench.library.unpack(kind, role, &words, &mut back);
    whole([there, again], &matrix, &back)
}

/// Words to matrix and back.
fn words_trip(bench: &mut Bench, kind: u32, role: u32) -> Result<u64, Difference> {
    let layout = bench.rules.layouts.of(kind, role);
    let mut words = vec![0; layout.buffer_length()];
    fill_words(&mut bench.random, &mut words);
    let mut matrix = vec![0; layout.matrix_length()];
    let mut back = vec![0; layout.buffer_length()];
    bench.random.fill(&mut matrix);
    bench.random.fill(&mut back);
    let there = bench.library.unpack(kind, role, &words, &mut matrix);
    let again = bench.library.pack(kind, role, &matrix, &mut back);
    whole([there, again], &words, &back)
}

/// Record to words to record, or words to record to words.
fn template_trip(bench: &mut Bench, from_record: bool) -> Result<u64, Difference> {
    let (mut record, mut record_back) = ([0; RECORD], [0; RECORD]);
    let (mut words, mut words_back) = ([0; WORDS], [0; WORDS]);
    bench.random.fill(&mut record);
    bench.random.fill(&mut words);
    if from_record {
        let there = bench.library.template_read(&record, &mut words_back);
        let again = bench.library.template_write(&words_back, &mut record_back);
        whole([there, again], &record, &record_back)
    } else {
        let there = bench.library.template_write(&words, &mut record_back);
        let again = bench.library.template_read(&record_back, &mut words_back);
        whole([there, again], &words, &words_back)
    }
}

pub fn round_trips(bench: &mut Bench) -> Result<Tally, Difference> {
    let name = "round trips";
    bench.random = Random::named(bench.seed, name);
    let mut tally = Tally::new(name);
    for _ in 0..bench.cases / SHARE {
        for kind in 1..=KINDS {
            for role in 0..3 {
                let at = |it: Difference| it.within(&format!("{name}, kind {kind}, role {role}"));
                tally.count(matrix_trip(bench, kind, role).map_err(at)?);
                tally.count(words_trip(bench, kind, role).map_err(at)?);
            }
        }
        for from_record in [true, false] {
            let at = |it: Difference| it.within(&format!("{name}, template records"));
            tally.count(template_trip(bench, from_record).map_err(at)?);
        }
    }
    Ok(tally)
}
