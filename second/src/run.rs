//! "Runs": a run is its selectors, its number of accepted blocks, 128 sums and, by K12, a mark for
//! each sum, in the words of the C interface.

use crate::layout::Layouts;
use crate::rules::C;
use crate::step::SUMS;
pub use crate::wazimroot::RUN_WORDS as WORDS;
use crate::{bits, refusals, step};

pub const MAX_BLOCKS: u32 = 4096;
/// Where the sums begin.
pub const HEAD: usize = 4;
/// Where the marks begin, and their words.
pub const MARKS: usize = HEAD + SUMS;
pub const MARK_WORDS: usize = 4;

/// Kind, signs, mode, number of accepted blocks.
pub fn head(run: &[u32; WORDS]) -> [u32; HEAD] {
    [run[0], run[1], run[2], run[3]]
}

/// Whether a mark is set. K12: the marks are "128 bits in four words, word-buffer order, low bit
/// first".
pub fn marked(marks: &[u32], j: usize) -> bool {
    bits::element(marks, j, 1) == 1
}

pub fn set_mark(marks: &mut [u32], j: usize) {
    bits::put(marks, j, 1, 1);
}

pub fn open(layouts: &Layouts, selector: [u32; 3], c: &[u32], run: &mut [u32; WORDS]) -> u64 {
    let answer = refusals::open(layouts, selector, c.len());
    run.fill(0);
    if answer == 0 {
        run[..3].copy_from_slice(&selector);
        run[HEAD..HEAD + c.len()].copy_from_slice(c);
    }
    answer
}

pub fn feed(layouts: &Layouts, run: &mut [u32; WORDS], a: &[u32], b: &[u32]) -> u64 {
    let answer = refusals::feed(layouts, run, a.len(), b.len());
    if answer == 0 {
        let [kind, signs, mode, number] = head(run);
        let used = layouts.of(kind, C).buffer_length();
        let clamps = step::clamps(kind, mode);
        let old = &run[HEAD..HEAD + used];
        let results = step::results(layouts, [kind, signs, mode], a, b, old);
        for (j, exact) in results.into_iter().enumerate() {
            run[HEAD + j] = step::finish(clamps, exact) as i32 as u32;
            if clamps && step::outside(exact) {
                set_mark(&mut run[MARKS..], j);
            }
        }
        run[3] = number + 1;
    }
    answer
}

pub fn read(layouts: &Layouts, run: &[u32; WORDS], d: &mut [u32]) -> u64 {
    let answer = refusals::read(layouts, run, d.len());
    if answer == 0 {
        let used = layouts.of(run[0], C).buffer_length();
        d.copy_from_slice(&run[HEAD..HEAD + used]);
    }
    answer
}

pub fn marks(layouts: &Layouts, run: &[u32; WORDS], marks: &mut [u32]) -> u64 {
    let answer = refusals::marks(layouts, run, marks.len());
    if answer == 0 {
        marks.copy_from_slice(&run[MARKS..]);
    }
    answer
}
