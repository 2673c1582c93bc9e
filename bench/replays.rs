//! The step records of the replay programs, all of kind 3, which leaves no tail unused.

use crate::random::Random;
use crate::wazimroot::{Calls, Table};
use std::io::{self, Write};

const RECORDS: usize = 200_000;
const KIND: u32 = 3;

/// D is the step's, by the calls that are lent, and wrong at a place of one record in sixteen.
pub fn write(calls: &Table, random: &mut Random, file: &mut dyn Write) -> io::Result<()> {
    for _ in 0..RECORDS {
        let selectors = [KIND, random.below(4), random.below(2)];
        let [a, b, c, mut d] = [128, 64, 128, 128].map(|n| random.words(n));
        assert_eq!(
            calls.step(selectors, &a, &b, &c, &mut d),
            0,
            "a step is refused"
        );
        if random.below(16) == 0 {
            d[random.below(128) as usize] ^= 1 << random.below(32);
        }
        let [kind, signs, mode] = selectors.map(|number| number as u8);
        file.write_all(&[kind, signs, mode, 0, 0, 0, 0, 0])?;
        for word in [a, b, c, d].concat() {
            file.write_all(&word.to_le_bytes())?;
        }
    }
    Ok(())
}
