//! The calls of `include/wazimroot.h` as plain Rust would have them: obvious loops over a table of
//! kinds, no proofs, nothing tuned by hand. Each call takes what the library's call takes, gives
//! the same answer, refuses the same and writes the same.

use crate::wazimroot::{
    BAD_RUN, BAD_SCALE, BAD_SELECTORS, MAX_BLOCKS, NOT_ARITHMETIC, RUN_FULL, RUN_WORDS, SCALE_NAN,
    TOO_WIDE, UNKNOWN_KIND, UNKNOWN_ROLE, WRONG_LENGTH,
};
use std::slice::{from_raw_parts, from_raw_parts_mut};

const LANES: usize = 32;
const QUAD: usize = 4;
const HALF: usize = 8;
const WORD_BITS: usize = 32;

const ROLE_A: usize = 0;
const ROLE_B: usize = 1;
const ROLE_C: usize = 2;

// The largest A and B of an integer step, and the columns that B and D have in every kind.
const MAX_M: usize = 16;
const MAX_K: usize = 64;
const N: usize = 8;

/// Shape, bits of an element of A or B and of C or D, words a lane for each role.
struct Kind {
    m: usize,
    k: usize,
    bits: usize,
    sum_bits: usize,
    words: [usize; 3],
}

const fn kind(m: usize, k: usize, bits: usize, sum_bits: usize, words: [usize; 3]) -> Kind {
    Kind {
        m,
        k,
        bits,
        sum_bits,
        words,
    }
}

static KINDS: [Kind; 14] = [
    kind(8, 128, 1, 32, [1, 1, 2]),
    kind(16, 16, 8, 32, [2, 1, 4]),
    kind(16, 32, 8, 32, [4, 2, 4]),
    kind(16, 32, 4, 32, [2, 1, 4]),
    kind(16, 64, 4, 32, [4, 2, 4]),
    kind(16, 8, 16, 32, [2, 1, 4]),
    kind(16, 8, 16, 16, [2, 1, 2]),
    kind(16, 8, 32, 32, [4, 2, 4]),
    kind(16, 8, 64, 64, [8, 4, 8]),
    kind(8, 4, 64, 64, [2, 2, 4]),
    kind(8, 16, 8, 32, [1, 1, 2]),
    kind(8, 32, 4, 32, [1, 1, 2]),
    kind(16, 128, 1, 32, [2, 1, 4]),
    kind(16, 256, 1, 32, [4, 2, 4]),
];

/// How a matrix lies in the lanes: each lane has groups of elements that stand side by side, in a
/// row of A and C, in a column of B.
pub struct Layout {
    role: usize,
    pub rows: usize,
    pub columns: usize,
    pub bits: usize,
    words: usize,
    side: usize,
    groups: usize,
    halves: usize,
}

impl Layout {
    pub fn of(kind: u32, role: u32) -> Layout {
        let kind = &KINDS[kind as usize - 1];
        let role = role as usize;
        let words = kind.words[role];
        let bits = if role == ROLE_C {
            kind.sum_bits
        } else {
            kind.bits
        };
        let side = match role {
            ROLE_C => 2,
            _ if bits < WORD_BITS => WORD_BITS / bits,
            _ => 1,
        };
        Layout {
            role,
            rows: if role == ROLE_B { kind.k } else { kind.m },
            columns: if role == ROLE_A { kind.k } else { N },
            bits,
            words,
            side,
            groups: words * WORD_BITS / bits / side,
            halves: if role == ROLE_B { 1 } else { kind.m / HALF },
        }
    }

    pub fn warp_length(&self) -> usize {
        LANES * self.words
    }

    pub fn matrix_length(&self) -> usize {
        self.rows * self.columns
    }

    pub fn elements(&self) -> usize {
        self.groups * self.side
    }

    /// Row and column of a lane's element.
    fn place(&self, lane: usize, group: usize, i: usize) -> (usize, usize) {
        let major = group % self.halves * HALF + lane / QUAD;
        let minor = (group / self.halves * QUAD + lane % QUAD) * self.side + i;
        if self.role == ROLE_B {
            (minor, major)
        } else {
            (major, minor)
        }
    }

    fn index(&self, lane: usize, group: usize, i: usize) -> usize {
        let (row, column) = self.place(lane, group, i);
        row * self.columns + column
    }
}

fn low_bits(word: u32, bits: usize) -> u32 {
    word & u32::MAX >> (WORD_BITS - bits)
}

fn get_element(words: &[u32], bits: usize, element: usize) -> u64 {
    if bits == 64 {
        return words[2 * element] as u64 | (words[2 * element + 1] as u64) << WORD_BITS;
    }
    let bit = element * bits;
    low_bits(words[bit / WORD_BITS] >> (bit % WORD_BITS), bits) as u64
}

/// Into words that are 0 so far.
fn put_element(words: &mut [u32], bits: usize, element: usize, entry: u64) {
    if bits == 64 {
        words[2 * element] = entry as u32;
        words[2 * element + 1] = (entry >> WORD_BITS) as u32;
    } else {
        let bit = element * bits;
        words[bit / WORD_BITS] |= (entry as u32) << (bit % WORD_BITS);
    }
}

type Judged = Result<(), u64>;

fn refused<T>(number: u32, detail: u32) -> Result<T, u64> {
    Err(number as u64 | (detail as u64) << 32)
}

fn answer(judged: Judged) -> u64 {
    judged.err().unwrap_or(0)
}

fn known_kind(kind: u32) -> bool {
    kind >= 1 && kind as usize <= KINDS.len()
}

fn judge_role(kind: u32, role: u32) -> Result<Layout, u64> {
    if !known_kind(kind) {
        return refused(UNKNOWN_KIND, 0);
    }
    if role > 2 {
        return refused(UNKNOWN_ROLE, 0);
    }
    Ok(Layout::of(kind, role))
}

fn judge_length(given: usize, needed: usize, buffer: u32) -> Judged {
    if given != needed {
        return refused(WRONG_LENGTH, buffer);
    }
    Ok(())
}

fn unpack(kind: u32, role: u32, words: &[u32], matrix: &mut [u64]) -> Judged {
    let l = judge_role(kind, role)?;
    judge_length(words.len(), l.warp_length(), 0)?;
    judge_length(matrix.len(), l.matrix_length(), 1)?;
    for (lane, own) in words.chunks_exact(l.words).enumerate() {
        for group in 0..l.groups {
            for i in 0..l.side {
                matrix[l.index(lane, group, i)] = get_element(own, l.bits, group * l.side + i);
            }
        }
    }
    Ok(())
}

fn judge_fit(matrix: &[u64], bits: usize) -> Judged {
    if bits == 64 {
        return Ok(());
    }
    match matrix.iter().position(|entry| entry >> bits != 0) {
        Some(first) => refused(TOO_WIDE, first as u32),
        None => Ok(()),
    }
}

fn pack(kind: u32, role: u32, matrix: &[u64], words: &mut [u32]) -> Judged {
    let l = judge_role(kind, role)?;
    judge_length(matrix.len(), l.matrix_length(), 0)?;
    judge_length(words.len(), l.warp_length(), 1)?;
    judge_fit(matrix, l.bits)?;
    words.fill(0);
    for (lane, own) in words.chunks_exact_mut(l.words).enumerate() {
        for group in 0..l.groups {
            for i in 0..l.side {
                let entry = matrix[l.index(lane, group, i)];
                put_element(own, l.bits, group * l.side + i, entry);
            }
        }
    }
    Ok(())
}

fn number_of(pattern: u32, bits: usize, is_unsigned: bool) -> i32 {
    if is_unsigned || pattern >> (bits - 1) == 0 {
        pattern as i32
    } else {
        pattern as i32 - (1 << bits)
    }
}

/// The numbers of A or B, row-major.
fn numbers(l: &Layout, is_unsigned: bool, words: &[u32], matrix: &mut [i32]) {
    for (lane, own) in words.chunks_exact(l.words).enumerate() {
        for (group, word) in own.iter().enumerate() {
            for i in 0..l.side {
                let pattern = low_bits(word >> (i * l.bits), l.bits);
                matrix[l.index(lane, group, i)] = number_of(pattern, l.bits, is_unsigned);
            }
        }
    }
}

fn limited(total: i64, mode: u32) -> u32 {
    if mode == 1 {
        total.clamp(i32::MIN as i64, i32::MAX as i64) as u32
    } else {
        total as u32
    }
}

/// The sums are C before and D after. Where there are marks, a sum that was clamped sets its mark.
fn integer_step(
    (kind, signs, mode): (u32, u32, u32),
    a: &[u32],
    b: &[u32],
    sums: &mut [u32],
    mut marks: Option<&mut Marks>,
) {
    let k = KINDS[kind as usize - 1].k;
    let mut left = [0; MAX_M * MAX_K];
    let mut right = [0; MAX_K * N];
    let mut products = [0; MAX_M * N];
    numbers(&Layout::of(kind, 0), signs & 1 == 1, a, &mut left);
    numbers(&Layout::of(kind, 1), signs >> 1 == 1, b, &mut right);
    for (row, sums) in left.chunks_exact(k).zip(products.chunks_exact_mut(N)) {
        for (x, ys) in row.iter().zip(right.chunks_exact(N)) {
            for (sum, y) in sums.iter_mut().zip(ys) {
                *sum += x * y;
            }
        }
    }
    let l = Layout::of(kind, 2);
    for (lane, own) in sums.chunks_exact_mut(l.words).enumerate() {
        for group in 0..l.groups {
            for i in 0..l.side {
                let sum = &mut own[group * l.side + i];
                let product = products[l.index(lane, group, i)];
                let total = *sum as i32 as i64 + product as i64;
                *sum = limited(total, mode);
                if let Some(marks) = &mut marks {
                    if i32::try_from(total).is_err() {
                        let word = lane * l.words + group * l.side + i;
                        marks[word / WORD_BITS] |= 1 << (word % WORD_BITS);
                    }
                }
            }
        }
    }
}

fn ones_in(mode: u32, x: u32, y: u32) -> u32 {
    let combined = if mode == 0 { x ^ y } else { x & y };
    combined.count_ones()
}

/// Kind 1: a quad's words are a row of A, or a column of B. The sums are C before and D after.
fn short_one_bit_step(mode: u32, a: &[u32], b: &[u32], sums: &mut [u32]) {
    let l = Layout::of(1, 2);
    for (lane, own) in sums.chunks_exact_mut(l.words).enumerate() {
        for (i, sum) in own.iter_mut().enumerate() {
            let (row, column) = l.place(lane, 0, i);
            let left = &a[row * QUAD..][..QUAD];
            let right = &b[column * QUAD..][..QUAD];
            for (x, y) in left.iter().zip(right) {
                *sum = sum.wrapping_add(ones_in(mode, *x, *y));
            }
        }
    }
}

/// Kinds 13 and 14: a lane has a word of A for each span of 128 columns and each half of its rows,
/// and one of B for each span.
fn long_one_bit_step(kind: u32, mode: u32, a: &[u32], b: &[u32], sums: &mut [u32]) {
    let [of_a, of_b, l] = [0, 1, 2].map(|role| Layout::of(kind, role));
    for (lane, own) in sums.chunks_exact_mut(l.words).enumerate() {
        for (i, sum) in own.iter_mut().enumerate() {
            let (row, column) = l.place(lane, i / l.side, i % l.side);
            for span in 0..of_b.groups {
                for t in 0..QUAD {
                    let half = span * of_a.halves + row / HALF;
                    let x = a[(row % HALF * QUAD + t) * of_a.words + half];
                    let y = b[(column * QUAD + t) * of_b.words + span];
                    *sum = sum.wrapping_add(ones_in(mode, x, y));
                }
            }
        }
    }
}

fn is_one_bit(kind: u32) -> bool {
    KINDS[kind as usize - 1].bits == 1
}

fn is_arithmetic(kind: u32) -> bool {
    kind <= 5 || kind >= 11
}

fn work(
    (kind, signs, mode): (u32, u32, u32),
    a: &[u32],
    b: &[u32],
    sums: &mut [u32],
    marks: Option<&mut Marks>,
) {
    if kind == 1 {
        short_one_bit_step(mode, a, b, sums)
    } else if is_one_bit(kind) {
        long_one_bit_step(kind, mode, a, b, sums)
    } else {
        integer_step((kind, signs, mode), a, b, sums, marks)
    }
}

fn bad_selectors(kind: u32, signs: u32, mode: u32) -> bool {
    signs > 3 || mode > 1 || (is_one_bit(kind) && signs != 0)
}

fn judge_selectors(kind: u32, signs: u32, mode: u32) -> Judged {
    if !known_kind(kind) {
        return refused(UNKNOWN_KIND, 0);
    }
    if !is_arithmetic(kind) {
        return refused(NOT_ARITHMETIC, 0);
    }
    if bad_selectors(kind, signs, mode) {
        return refused(BAD_SELECTORS, 0);
    }
    Ok(())
}

fn words_of(kind: u32, role: usize) -> usize {
    LANES * KINDS[kind as usize - 1].words[role]
}

fn step(
    (kind, signs, mode): (u32, u32, u32),
    a: &[u32],
    b: &[u32],
    c: &[u32],
    d: &mut [u32],
) -> Judged {
    judge_selectors(kind, signs, mode)?;
    judge_length(a.len(), words_of(kind, ROLE_A), 0)?;
    judge_length(b.len(), words_of(kind, ROLE_B), 1)?;
    judge_length(c.len(), words_of(kind, ROLE_C), 2)?;
    judge_length(d.len(), words_of(kind, ROLE_C), 3)?;
    d.copy_from_slice(c);
    work((kind, signs, mode), a, b, d, None);
    Ok(())
}

const MARK_WORDS: usize = 4;
const SUMS: usize = RUN_WORDS - 4 - MARK_WORDS;
type Marks = [u32; MARK_WORDS];

/// A run's words, in the order of the interface.
#[repr(C)]
pub struct Run {
    kind: u32,
    signs: u32,
    mode: u32,
    blocks: u32,
    sums: [u32; SUMS],
    marks: Marks,
}

impl Run {
    fn open(&mut self, kind: u32, signs: u32, mode: u32, c: &[u32]) -> Judged {
        *self = Run {
            kind: 0,
            signs: 0,
            mode: 0,
            blocks: 0,
            sums: [0; SUMS],
            marks: [0; MARK_WORDS],
        };
        judge_selectors(kind, signs, mode)?;
        judge_length(c.len(), words_of(kind, ROLE_C), 0)?;
        self.kind = kind;
        self.signs = signs;
        self.mode = mode;
        self.sums[..c.len()].copy_from_slice(c);
        Ok(())
    }

    fn can_clamp(&self) -> bool {
        self.mode == 1 && !is_one_bit(self.kind)
    }

    /// Past the last sum, or in a run that cannot clamp.
    fn stray_mark(&self) -> bool {
        let first = if self.can_clamp() {
            words_of(self.kind, ROLE_C) / WORD_BITS
        } else {
            0
        };
        self.marks[first..].iter().any(|word| *word != 0)
    }

    fn judge(&self) -> Judged {
        let known = known_kind(self.kind) && is_arithmetic(self.kind);
        if !known
            || bad_selectors(self.kind, self.signs, self.mode)
            || self.blocks > MAX_BLOCKS
            || self.stray_mark()
        {
            return refused(BAD_RUN, 0);
        }
        Ok(())
    }

    fn feed(&mut self, a: &[u32], b: &[u32]) -> Judged {
        self.judge()?;
        if self.blocks == MAX_BLOCKS {
            return refused(RUN_FULL, 0);
        }
        judge_length(a.len(), words_of(self.kind, ROLE_A), 0)?;
        judge_length(b.len(), words_of(self.kind, ROLE_B), 1)?;
        let used = words_of(self.kind, ROLE_C);
        let selectors = (self.kind, self.signs, self.mode);
        let marks = self.can_clamp().then_some(&mut self.marks);
        work(selectors, a, b, &mut self.sums[..used], marks);
        self.blocks += 1;
        Ok(())
    }

    fn read(&self, d: &mut [u32]) -> Judged {
        self.judge()?;
        let used = words_of(self.kind, ROLE_C);
        judge_length(d.len(), used, 0)?;
        d.copy_from_slice(&self.sums[..used]);
        Ok(())
    }

    fn marks(&self, marks: &mut [u32]) -> Judged {
        self.judge()?;
        judge_length(marks.len(), MARK_WORDS, 0)?;
        marks.copy_from_slice(&self.marks);
        Ok(())
    }
}

fn judge_scale(size: u32, side: u32, byte_id: u32, thread_id: u32) -> Judged {
    if !matches!(size, 1 | 2 | 4) {
        return refused(BAD_SCALE, 0);
    }
    if side > 1 {
        return refused(BAD_SCALE, 1);
    }
    if byte_id > 3 || byte_id % size != 0 {
        return refused(BAD_SCALE, 2);
    }
    if thread_id > if side == 0 { 1 } else { 3 } {
        return refused(BAD_SCALE, 3);
    }
    Ok(())
}

fn scale(
    (size, side, byte_id, thread_id): (u32, u32, u32, u32),
    metadata: &[u32],
    out: &mut [i32],
) -> Judged {
    judge_scale(size, side, byte_id, thread_id)?;
    judge_length(metadata.len(), LANES, 0)?;
    let lanes = if side == 0 { 16 } else { 8 };
    judge_length(out.len(), lanes * size as usize, 1)?;
    let mut chosen = [0; LANES / 2 * 4];
    let chosen = &mut chosen[..out.len()];
    let mut at = 0;
    for (lane, word) in metadata.iter().enumerate() {
        let t = (lane % QUAD) as u32;
        if thread_id != if side == 0 { t / 2 } else { t } {
            continue;
        }
        for byte in byte_id..byte_id + size {
            chosen[at] = (word >> (8 * byte)) as u8;
            at += 1;
        }
    }
    if let Some(nan) = chosen.iter().position(|&byte| byte == 255) {
        return refused(SCALE_NAN, nan as u32);
    }
    for (number, &byte) in out.iter_mut().zip(chosen.iter()) {
        *number = i32::from(byte) - 127;
    }
    Ok(())
}

// The calls by C's rules, so that the three implementations are called alike.

pub unsafe extern "C" fn plain_rust_unpack(
    kind: u32,
    role: u32,
    words: *const u32,
    n: usize,
    matrix: *mut u64,
    m: usize,
) -> u64 {
    answer(unpack(
        kind,
        role,
        from_raw_parts(words, n),
        from_raw_parts_mut(matrix, m),
    ))
}

pub unsafe extern "C" fn plain_rust_pack(
    kind: u32,
    role: u32,
    matrix: *const u64,
    m: usize,
    words: *mut u32,
    n: usize,
) -> u64 {
    answer(pack(
        kind,
        role,
        from_raw_parts(matrix, m),
        from_raw_parts_mut(words, n),
    ))
}

pub unsafe extern "C" fn plain_rust_step(
    kind: u32,
    signs: u32,
    mode: u32,
    a: *const u32,
    na: usize,
    b: *const u32,
    nb: usize,
    c: *const u32,
    nc: usize,
    d: *mut u32,
    nd: usize,
) -> u64 {
    answer(step(
        (kind, signs, mode),
        from_raw_parts(a, na),
        from_raw_parts(b, nb),
        from_raw_parts(c, nc),
        from_raw_parts_mut(d, nd),
    ))
}

pub unsafe extern "C" fn plain_rust_open(
    kind: u32,
    signs: u32,
    mode: u32,
    c: *const u32,
    nc: usize,
    run: *mut u32,
) -> u64 {
    let run = &mut *run.cast::<Run>();
    answer(run.open(kind, signs, mode, from_raw_parts(c, nc)))
}

pub unsafe extern "C" fn plain_rust_feed(
    run: *mut u32,
    a: *const u32,
    na: usize,
    b: *const u32,
    nb: usize,
) -> u64 {
    let run = &mut *run.cast::<Run>();
    answer(run.feed(from_raw_parts(a, na), from_raw_parts(b, nb)))
}

pub unsafe extern "C" fn plain_rust_read(run: *const u32, d: *mut u32, nd: usize) -> u64 {
    let run = &*run.cast::<Run>();
    answer(run.read(from_raw_parts_mut(d, nd)))
}

pub unsafe extern "C" fn plain_rust_marks(run: *const u32, marks: *mut u32, n: usize) -> u64 {
    let run = &*run.cast::<Run>();
    answer(run.marks(from_raw_parts_mut(marks, n)))
}

pub unsafe extern "C" fn plain_rust_scale(
    size: u32,
    side: u32,
    byte_id: u32,
    thread_id: u32,
    metadata: *const u32,
    nm: usize,
    out: *mut i32,
    no: usize,
) -> u64 {
    answer(scale(
        (size, side, byte_id, thread_id),
        from_raw_parts(metadata, nm),
        from_raw_parts_mut(out, no),
    ))
}
