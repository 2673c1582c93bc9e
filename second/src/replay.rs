//! K2: step records and their verdicts.

use crate::layout::Layouts;
use crate::refusals;
use crate::rules::{A, ARITHMETIC, B, C};
use crate::step;
use crate::wazimroot::number;
use std::fmt;
use std::ops::Range;

/// "step records of 1,800 bytes, no header: kind, signs, mode, five zero bytes, then A (512), B
/// (256), C (512) and D (512), little-endian words, unused tails zero".
pub const RECORD: usize = 1_800;
pub const RESERVED: Range<usize> = 3..8;
/// The bytes of A, B, C and D.
pub const PARTS: [Range<usize>; 4] = [8..520, 520..776, 776..1_288, 1_288..1_800];
const ROLES: [u32; 4] = [A, B, C, C];

pub type Record = [u8; RECORD];

#[derive(Clone, Copy, Debug, PartialEq)]
pub enum Verdict {
    Ok,
    /// By its number.
    Refused(u32),
    /// At a row and column.
    Wrong(u32, u32),
}

impl fmt::Display for Verdict {
    fn fmt(&self, f: &mut fmt::Formatter) -> fmt::Result {
        match self {
            Verdict::Ok => write!(f, "ok"),
            Verdict::Refused(number) => write!(f, "refused {number}"),
            Verdict::Wrong(row, column) => write!(f, "wrong {row} {column}"),
        }
    }
}

/// Kind, signs, mode.
pub fn head(record: &Record) -> [u32; 3] {
    [record[0], record[1], record[2]].map(u32::from)
}

pub fn put_head(record: &mut Record, head: [u32; 3]) {
    for (byte, number) in record.iter_mut().zip(head) {
        *byte = number as u8;
    }
}

/// The bytes that the words of a part of an arithmetic kind take, and its unused tail.
pub fn used_and_tail(layouts: &Layouts, kind: u32, part: usize) -> [Range<usize>; 2] {
    let Range { start, end } = PARTS[part].clone();
    let used = start + 4 * layouts.of(kind, ROLES[part]).buffer_length();
    [start..used, used..end]
}

/// A little-endian word.
fn word(bytes: &[u8]) -> u32 {
    let high_first = bytes.iter().rev();
    high_first.fold(0, |word, &byte| word << 8 | u32::from(byte))
}

/// The words of A, B, C and D, for an arithmetic kind.
fn parts(layouts: &Layouts, record: &Record) -> [Vec<u32>; 4] {
    let [kind, ..] = head(record);
    [0, 1, 2, 3].map(|part| {
        let [used, _] = used_and_tail(layouts, kind, part);
        record[used].chunks(4).map(word).collect()
    })
}

/// A record with clean tails.
pub fn record(head: [u32; 3], parts: &[Vec<u32>; 4]) -> Record {
    let mut record = [0; RECORD];
    put_head(&mut record, head);
    for (bytes, words) in PARTS.into_iter().zip(parts) {
        for (bytes, word) in record[bytes].chunks_mut(4).zip(words) {
            bytes.copy_from_slice(&word.to_le_bytes());
        }
    }
    record
}

/// "Mode byte 255 with signs 0 asks for the plain step."
pub fn asked(head: [u32; 3]) -> [u32; 3] {
    match head {
        [kind, 0, 255] => [kind, 0, 0],
        other => other,
    }
}

/// "a reserved byte or unused tail not zero .. (tails are looked at only in arithmetic kinds)".
fn not_zero(layouts: &Layouts, record: &Record) -> bool {
    let [kind, ..] = head(record);
    let mut bytes = record[RESERVED].to_vec();
    if ARITHMETIC.contains(&kind) {
        for part in 0..4 {
            let [_, tail] = used_and_tail(layouts, kind, part);
            bytes.extend(&record[tail]);
        }
    }
    bytes.iter().any(|&byte| byte != 0)
}

pub fn verdict(layouts: &Layouts, record: &Record) -> Verdict {
    let asked = asked(head(record));
    let answer = refusals::record(not_zero(layouts, record), asked);
    if answer != 0 {
        return Verdict::Refused(number(answer));
    }
    let [a, b, c, logged] = parts(layouts, record);
    let mut right = vec![0; logged.len()];
    step::step(layouts, asked, &a, &b, &c, &mut right);
    let [right, logged] = [right, logged].map(|words| step::sums(layouts, asked[0], &words));
    match right.iter().zip(&logged).position(|(a, b)| a != b) {
        None => Verdict::Ok,
        Some(place) => wrong(layouts, asked[0], place),
    }
}

/// Wrong at a place of D, row-major.
pub fn wrong(layouts: &Layouts, kind: u32, place: usize) -> Verdict {
    let columns = layouts.of(kind, C).columns;
    Verdict::Wrong(place as u32 / columns, place as u32 % columns)
}

/// What is printed for a record.
pub fn line(number: usize, verdict: Verdict) -> String {
    format!("{number} {verdict}\n")
}
