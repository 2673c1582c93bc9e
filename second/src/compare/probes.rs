//! What a probe sees, through the library alone: the bits from the bit of an element's place up, in
//! the word of its lane, are the entry at its row and column.

use super::Bench;
use crate::random::Random;
use crate::report::{shown, Difference, Tally};
use crate::rules::{KINDS, LANES};
use crate::values::{fill_matrix, fill_words};

/// Random cases of a call for each pair of buffers of each kind and role.
const SHARE: u64 = 2_000;

/// The bits that stand in a lane from a bit of a word up; 64 of them are two words, low half first.
fn seen(lane_words: &[u32], bits: usize, word: usize, bit: u32) -> u64 {
    if bits == 64 {
        return u64::from(lane_words[word]) | u64::from(lane_words[word + 1]) << 32;
    }
    u64::from(lane_words[word] >> bit) & ((1 << bits) - 1)
}

/// Looks at every element of the words of a matrix.
fn probe(
    bench: &Bench,
    [kind, role]: [u32; 2],
    words: &[u32],
    matrix: &[u64],
    tally: &mut Tally,
) -> Result<(), Difference> {
    let layout = bench.rules.layouts.of(kind, role);
    for lane in 0..LANES {
        let lane_words = &words[lane as usize * layout.words..][..layout.words];
        for element in 0..layout.elements {
            let mut place = [0; 4];
            let answer = bench.library.place(kind, role, lane, element, &mut place);
            let [row, column, word, bit] = place;
            let entry = matrix[(row * layout.columns + column) as usize];
            let seen = seen(lane_words, layout.bits, word as usize, bit);
            if (answer, seen) != (0, entry) {
                let answer = shown(answer);
                return Err(Difference::new(format!(
                    "lane {lane}, element {element}: {answer}, {place:?}, seen {seen:#x}, entry {entry:#x}"
                )));
            }
            tally.count(answer);
        }
    }
    Ok(())
}

/// Of words that the library unpacked, and of a matrix that it packed.
fn both_ways(bench: &mut Bench, at: [u32; 2], tally: &mut Tally) -> Result<(), Difference> {
    let [kind, role] = at;
    let layout = bench.rules.layouts.of(kind, role);
    let mut words = vec![0; layout.buffer_length()];
    let mut matrix = vec![0; layout.matrix_length()];
    fill_words(&mut bench.random, &mut words);
    let unpacked = bench.library.unpack(kind, role, &words, &mut matrix);
    probe(bench, at, &words, &matrix, tally)?;
    fill_matrix(&mut bench.random, &mut matrix, layout.bits);
    let packed = bench.library.pack(kind, role, &matrix, &mut words);
    probe(bench, at, &words, &matrix, tally)?;
    for answer in [unpacked, packed] {
        if answer != 0 {
            return Err(Difference::new(format!("library {}", shown(answer))));
        }
    }
    Ok(())
}

pub fn probes(bench: &mut Bench) -> Result<Tally, Difference> {
    let name = "probes";
    bench.random = Random::named(bench.seed, name);
    let mut tally = Tally::new(name);
    for _ in 0..bench.cases.div_ceil(SHARE) {
        for kind in 1..=KINDS {
            for role in 0..3 {
                let at = |it: Difference| it.within(&format!("{name}, kind {kind}, role {role}"));
                both_ways(bench, [kind, role], &mut tally).map_err(at)?;
            }
        }
    }
    Ok(tally)
}
