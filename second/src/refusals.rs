//! "Refusal numbers": for each call the list of what can be refused, in the call's order.

use crate::bits;
use crate::layout::Layouts;
use crate::rules::{A, ARITHMETIC, B, C, KINDS, ONE_BIT};
use crate::run::{self, MAX_BLOCKS};
use crate::step::{self, SUMS};

/// Whether it applies, its number, its detail.
type Refusal = (bool, u32, u32);

/// The answer of a call: the first refusal that applies, or 0.
fn first(list: &[Refusal]) -> u64 {
    for &(applies, number, detail) in list {
        if applies {
            return u64::from(detail) << 32 | u64::from(number);
        }
    }
    0
}

fn unknown_kind(kind: u32) -> Refusal {
    (kind == 0 || kind > KINDS, 1, 0)
}

fn unknown_role(role: u32) -> Refusal {
    (role > 2, 2, 0)
}

fn not_arithmetic(kind: u32) -> Refusal {
    ((6..=10).contains(&kind), 3, 0)
}

fn selectors(kind: u32, signs: u32, mode: u32) -> Refusal {
    let one_bit = ONE_BIT.contains(&kind);
    (signs > 3 || mode > 1 || (one_bit && signs != 0), 4, 0)
}

/// Refusal 5. `needed` is `None` only where the kind or the role is unknown, which an earlier
/// refusal says.
fn length(buffer: u32, given: usize, needed: Option<usize>) -> Refusal {
    (matches!(needed, Some(needed) if given != needed), 5, buffer)
}

/// Length of the warp buffer of a kind and role.
fn words(layouts: &Layouts, kind: u32, role: u32) -> Option<usize> {
    Some(layouts.get(kind, role)?.buffer_length())
}

fn entries(layouts: &Layouts, kind: u32, role: u32) -> Option<usize> {
    Some(layouts.get(kind, role)?.matrix_length())
}

/// Place and the reverse question: 1, 2, 6.
pub fn place(kind: u32, role: u32, outside: bool) -> u64 {
    first(&[unknown_kind(kind), unknown_role(role), (outside, 6, 0)])
}

/// Unpack: 1, 2, 5; words, matrix.
pub fn unpack(layouts: &Layouts, kind: u32, role: u32, nw: usize, nm: usize) -> u64 {
    first(&[
        unknown_kind(kind),
        unknown_role(role),
        length(0, nw, words(layouts, kind, role)),
        length(1, nm, entries(layouts, kind, role)),
    ])
}

/// Pack: 1, 2, 5, 7; matrix, words.
pub fn pack(layouts: &Layouts, kind: u32, role: u32, matrix: &[u64], nw: usize) -> u64 {
    let bits = layouts.get(kind, role).map_or(64, |layout| layout.bits);
    let too_wide = matrix.iter().position(|&entry| !bits::fits(entry, bits));
    first(&[
        unknown_kind(kind),
        unknown_role(role),
        length(0, matrix.len(), entries(layouts, kind, role)),
        length(1, nw, words(layouts, kind, role)),
        (too_wide.is_some(), 7, too_wide.unwrap_or(0) as u32),
    ])
}

/// Step: 1, 3, 4, 5; A, B, C, D.
pub fn step(layouts: &Layouts, selector: [u32; 3], lengths: [usize; 4]) -> u64 {
    let [kind, signs, mode] = selector;
    let [na, nb, nc, nd] = lengths;
    first(&[
        unknown_kind(kind),
        not_arithmetic(kind),
        selectors(kind, signs, mode),
        length(0, na, words(layouts, kind, A)),
        length(1, nb, words(layouts, kind, B)),
        length(2, nc, words(layouts, kind, C)),
        length(3, nd, words(layouts, kind, C)),
    ])
}

/// K2, a step record: "11, a reserved byte or unused tail not zero, comes before 1 ..; the others keep
/// 01's order": 3, 4. The selector is what the record asks for.
pub fn record(not_zero: bool, selector: [u32; 3]) -> u64 {
    let [kind, signs, mode] = selector;
    first(&[
        (not_zero, 11, 0),
        unknown_kind(kind),
        not_arithmetic(kind),
        selectors(kind, signs, mode),
    ])
}

/// Open: 1, 3, 4, 5; C.
pub fn open(layouts: &Layouts, selector: [u32; 3], nc: usize) -> u64 {
    let [kind, signs, mode] = selector;
    first(&[
        unknown_kind(kind),
        not_arithmetic(kind),
        selectors(kind, signs, mode),
        length(0, nc, words(layouts, kind, C)),
    ])
}

/// K12: "a mark past the last sum or in a run that can't clamp".
fn stray_mark(layouts: &Layouts, run: &[u32; run::WORDS]) -> bool {
    let [kind, _, mode, _] = run::head(run);
    let sums = words(layouts, kind, C).unwrap_or(0);
    let mut set = (0..SUMS).filter(|&j| run::marked(&run[run::MARKS..], j));
    set.any(|j| j >= sums || !step::clamps(kind, mode))
}

/// Refusal 10.
fn bad_run(layouts: &Layouts, run: &[u32; run::WORDS]) -> Refusal {
    let [kind, signs, mode, number] = run::head(run);
    let known = ARITHMETIC.contains(&kind);
    let bad = !known || selectors(kind, signs, mode).0 || number > MAX_BLOCKS;
    (bad || stray_mark(layouts, run), 10, 0)
}

/// Feed: 10, 9, 5; A, B.
pub fn feed(layouts: &Layouts, run: &[u32; run::WORDS], na: usize, nb: usize) -> u64 {
    let [kind, _, _, number] = run::head(run);
    first(&[
        bad_run(layouts, run),
        (number == MAX_BLOCKS, 9, 0),
        length(0, na, words(layouts, kind, A)),
        length(1, nb, words(layouts, kind, B)),
    ])
}

/// Read: 10, 5; D.
pub fn read(layouts: &Layouts, run: &[u32; run::WORDS], nd: usize) -> u64 {
    let [kind, ..] = run::head(run);
    let needed = words(layouts, kind, C);
    first(&[bad_run(layouts, run), length(0, nd, needed)])
}

/// Reading the marks: 10, 5; marks.
pub fn marks(layouts: &Layouts, run: &[u32; run::WORDS], n: usize) -> u64 {
    first(&[bad_run(layouts, run), length(0, n, Some(run::MARK_WORDS))])
}

/// Scale: 8, 5; metadata, output. Then 12, by the chosen bytes.
pub fn scale(selector: [u32; 4], nm: usize, no: usize) -> u64 {
    let [size, side, byte_id, thread_id] = selector;
    let byte_legal = match size {
        1 => byte_id <= 3,
        2 => byte_id == 0 || byte_id == 2,
        _ => byte_id == 0,
    };
    let thread_legal = match side {
        0 => thread_id <= 1,
        _ => thread_id <= 3,
    };
    let output = size as usize * if side == 0 { 16 } else { 8 };
    first(&[
        (size != 1 && size != 2 && size != 4, 8, 0),
        (side != 0 && side != 1, 8, 1),
        (!byte_legal, 8, 2),
        (!thread_legal, 8, 3),
        length(0, nm, Some(32)),
        length(1, no, Some(output)),
    ])
}

/// K4: 12, a chosen byte is 255, with its index in the output.
pub fn scale_bytes(chosen: &[u64]) -> u64 {
    let nan = chosen.iter().position(|&byte| byte == 255);
    first(&[(nan.is_some(), 12, nan.unwrap_or(0) as u32)])
}

/// Template records: 5 only; reading counts record, words.
pub fn template_read(nr: usize, nw: usize) -> u64 {
    first(&[length(0, nr, Some(256)), length(1, nw, Some(64))])
}

/// Writing counts words, record.
pub fn template_write(nw: usize, nr: usize) -> u64 {
    first(&[length(0, nw, Some(64)), length(1, nr, Some(256))])
}
