//! Logs of step records, and what is due for them.

use super::records::{Made, Maker};
use super::sorts::SORTS;
use super::Bench;
use crate::replay::{self, Verdict, RECORD};

/// A record of any sort, and the number of the sort.
pub fn any(bench: &mut Bench) -> (usize, Made) {
    let mut maker = Maker::of(bench);
    let sort = maker.random.below(SORTS.len());
    (sort, (SORTS[sort].1)(&mut maker))
}

/// Records of any sort, and their verdicts.
pub struct Log {
    pub bytes: Vec<u8>,
    verdicts: Vec<Verdict>,
}

impl Log {
    pub fn new(bench: &mut Bench, records: usize) -> Log {
        let (mut bytes, mut verdicts) = (Vec::new(), Vec::new());
        for _ in 0..records {
            let (_, (record, _)) = any(bench);
            verdicts.push(replay::verdict(&bench.rules.layouts, &record));
            bytes.extend(record);
        }
        Log { bytes, verdicts }
    }

    /// The line of a record; behind the last one the log begins anew.
    pub fn line(&self, number: usize) -> String {
        replay::line(number, self.verdicts[number % self.verdicts.len()])
    }

    /// "A part record at the end counts as absent": what is due for so many bytes.
    pub fn due(&self, bytes: usize) -> String {
        (0..bytes / RECORD)
            .map(|number| self.line(number))
            .collect()
    }

    pub fn all_due(&self) -> String {
        self.due(self.bytes.len())
    }
}
