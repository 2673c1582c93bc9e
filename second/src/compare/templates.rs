//! wz_template_read and wz_template_write.

use super::Bench;
use crate::fence::{compare, Fenced};
use crate::random::Random;
use crate::report::{Difference, Tally};
use crate::values::{fill_words, Odds};
use crate::wazimroot::Calls;

pub const RECORD: usize = 256;
pub const WORDS: usize = 64;

/// Bytes of a record: random, or one byte throughout.
fn fill_record(random: &mut Random, record: &mut [u8]) {
    if random.one_in(4) {
        record.fill(random.pick(&[0, 0x7f, 0x80, 0xff]));
    } else {
        random.fill(record);
    }
}

pub fn wz_template_read(bench: &mut Bench) -> Result<Tally, Difference> {
    let mut record = Fenced::new("record");
    let mut words = Fenced::new("words");
    bench.random_cases("wz_template_read", |bench| {
        read(bench, &mut record, &mut words)
    })
}

fn read(
    bench: &mut Bench,
    record: &mut Fenced<u8>,
    words: &mut Fenced<u32>,
) -> Result<u64, Difference> {
    let random = &mut bench.random;
    let odds = Odds::new(random);
    let length = odds.length(random, RECORD, &[WORDS]);
    record.lay_filled(random, length, fill_record);
    let length = odds.length(random, WORDS, &[RECORD]);
    words.lay(random, length);
    let library = bench.library;
    let library = library.template_read(record.library(), words.library_mut());
    let rules = bench.rules;
    let rules = rules.template_read(record.rules(), words.rules_mut());
    compare(library, rules, &[record, words], || {
        "a record to words".to_string()
    })
}

pub fn wz_template_write(bench: &mut Bench) -> Result<Tally, Difference> {
    let mut words = Fenced::new("words");
    let mut record = Fenced::new("record");
    bench.random_cases("wz_template_write", |bench| {
        write(bench, &mut words, &mut record)
    })
}

fn write(
    bench: &mut Bench,
    words: &mut Fenced<u32>,
    record: &mut Fenced<u8>,
) -> Result<u64, Difference> {
    let random = &mut bench.random;
    let odds = Odds::new(random);
    let length = odds.length(random, WORDS, &[RECORD]);
    words.lay_filled(random, length, fill_words);
    let length = odds.length(random, RECORD, &[WORDS]);
    record.lay(random, length);
    let library = bench.library;
    let library = library.template_write(words.library(), record.library_mut());
    let rules = bench.rules;
    let rules = rules.template_write(words.rules(), record.rules_mut());
    compare(library, rules, &[words, record], || {
        "words to a record".to_string()
    })
}
