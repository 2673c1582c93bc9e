//! The records of the lookup programs.

use crate::plain::Layout;
use crate::random::Random;
use std::io::{self, Write};

const RECORDS: usize = 1_000_000;

/// They end with a short one.
pub fn write(random: &mut Random, file: &mut dyn Write) -> io::Result<()> {
    for _ in 0..RECORDS {
        file.write_all(&record(random))?;
    }
    file.write_all(&[1, 2, 3])
}

/// One record in sixteen is any four bytes.
fn record(random: &mut Random) -> [u8; 4] {
    if random.below(16) == 0 {
        return random.word().to_le_bytes();
    }
    let (kind, role) = (1 + random.below(14), random.below(3));
    let elements = Layout::of(kind, role).elements() as u32;
    [kind, role, random.below(32), random.below(elements)].map(|number| number as u8)
}
