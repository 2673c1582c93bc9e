//! The calls of the C interface as the rules answer them.

use crate::layout::Layouts;
use crate::report::Difference;
use crate::wazimroot::{Calls, Run};
use crate::{bits, refusals, run, scale, step, template};

/// The second program's own answers.
pub struct Rules {
    pub layouts: Layouts,
}

impl Rules {
    pub fn new() -> Result<Rules, Difference> {
        let layouts = Layouts::new()?;
        Ok(Rules { layouts })
    }
}

/// Writes numbers that are there.
fn answer_with<const N: usize>(answer: u64, numbers: Option<[u32; N]>, out: &mut [u32; N]) -> u64 {
    if let (0, Some(numbers)) = (answer, numbers) {
        *out = numbers;
    }
    answer
}

impl Calls for Rules {
    fn place(&self, kind: u32, role: u32, lane: u32, element: u32, out: &mut [u32; 4]) -> u64 {
        let layout = self.layouts.get(kind, role);
        let place = layout.and_then(|layout| layout.whole_place(lane, element));
        answer_with(refusals::place(kind, role, place.is_none()), place, out)
    }

    fn find(&self, kind: u32, role: u32, row: u32, column: u32, out: &mut [u32; 2]) -> u64 {
        let layout = self.layouts.get(kind, role);
        let holder = layout.and_then(|layout| layout.holder(row, column));
        answer_with(refusals::place(kind, role, holder.is_none()), holder, out)
    }

    fn unpack(&self, kind: u32, role: u32, words: &[u32], matrix: &mut [u64]) -> u64 {
        let answer = refusals::unpack(&self.layouts, kind, role, words.len(), matrix.len());
        if answer == 0 {
            bits::unpack(self.layouts.of(kind, role), words, matrix);
        }
        answer
    }

    fn pack(&self, kind: u32, role: u32, matrix: &[u64], words: &mut [u32]) -> u64 {
        let answer = refusals::pack(&self.layouts, kind, role, matrix, words.len());
        if answer == 0 {
            bits::pack(self.layouts.of(kind, role), matrix, words);
        }
        answer
    }

    fn step(&self, selector: [u32; 3], a: &[u32], b: &[u32], c: &[u32], d: &mut [u32]) -> u64 {
        let lengths = [a.len(), b.len(), c.len(), d.len()];
        let answer = refusals::step(&self.layouts, selector, lengths);
        if answer == 0 {
            step::step(&self.layouts, selector, a, b, c, d);
        }
        answer
    }

    /// "The plain step takes no selectors: signs 0, mode 0."
    fn plain_step(&self, kind: u32, a: &[u32], b: &[u32], c: &[u32], d: &mut [u32]) -> u64 {
        self.step([kind, 0, 0], a, b, c, d)
    }

    fn open(&self, selector: [u32; 3], c: &[u32], run: &mut Run) -> u64 {
        run::open(&self.layouts, selector, c, run)
    }

    fn feed(&self, run: &mut Run, a: &[u32], b: &[u32]) -> u64 {
        run::feed(&self.layouts, run, a, b)
    }

    fn read(&self, run: &Run, d: &mut [u32]) -> u64 {
        run::read(&self.layouts, run, d)
    }

    fn marks(&self, run: &Run, marks: &mut [u32]) -> u64 {
        run::marks(&self.layouts, run, marks)
    }

    fn scale(&self, selector: [u32; 4], metadata: &[u32], out: &mut [i32]) -> u64 {
        scale::scale(selector, metadata, out)
    }

    fn template_read(&self, record: &[u8], words: &mut [u32]) -> u64 {
        template::read(&self.layouts, record, words)
    }

    fn template_write(&self, words: &[u32], record: &mut [u8]) -> u64 {
        template::write(&self.layouts, words, record)
    }
}
