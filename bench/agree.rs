//! The three implementations on the same random input, legal and not: the same answer, and the same
//! in every buffer afterwards, or nothing is measured.

use crate::calls::NAMES;
use crate::plain::Layout;
use crate::random::Random;
use crate::wazimroot::{Calls, Run, Table, MAX_BLOCKS, RUN_WORDS};

const TRIALS: usize = 20_000;

/// Sums of a run, and words of its marks.
const SUMS: usize = 128;
const MARK_WORDS: usize = 4;

pub fn agree(calls: &[Table], random: &mut Random) {
    for _ in 0..TRIALS {
        unpacks(calls, random);
        packs(calls, random);
        steps(calls, random);
        runs(calls, random);
        scales(calls, random);
    }
}

fn same<T: PartialEq>(call: &str, calls: &[Table], told: impl Fn(&Table) -> T) {
    let first = told(&calls[0]);
    for (other, name) in calls.iter().zip(NAMES).skip(1) {
        if told(other) != first {
            eprintln!("{call}: {} and {name} differ", NAMES[0]);
            std::process::exit(1);
        }
    }
}

fn unpacks(calls: &[Table], random: &mut Random) {
    let (kind, role) = (random.below(16), random.below(4));
    let l = some_layout(kind, role);
    let n = some_length(random, l.warp_length());
    let words = random.words(n);
    let m = some_length(random, l.matrix_length());
    let before = random.entries(m, 64);
    same("unpack", calls, |c| {
        let mut matrix = before.clone();
        (c.unpack(kind, role, &words, &mut matrix), matrix)
    });
}

fn packs(calls: &[Table], random: &mut Random) {
    let (kind, role) = (random.below(16), random.below(4));
    let l = some_layout(kind, role);
    let m = some_length(random, l.matrix_length());
    let mut matrix = random.entries(m, l.bits);
    if m > 0 && random.below(4) == 0 {
        matrix[random.below(m as u32) as usize] |= 1 << random.below(64);
    }
    let n = some_length(random, l.warp_length());
    let before = random.words(n);
    same("pack", calls, |c| {
        let mut words = before.clone();
        (c.pack(kind, role, &matrix, &mut words), words)
    });
}

fn steps(calls: &[Table], random: &mut Random) {
    let selectors = some_selectors(random);
    let [a, b, c, before] = [0, 1, 2, 2].map(|role| some_warp(random, selectors[0], role));
    same("step", calls, |calls| {
        let mut d = before.clone();
        (calls.step(selectors, &a, &b, &c, &mut d), d)
    });
}

fn runs(calls: &[Table], random: &mut Random) {
    let selectors = some_selectors(random);
    let [a, b, c, before] = [0, 1, 2, 2].map(|role| some_warp(random, selectors[0], role));
    let by_hand = some_run(random, selectors);
    same("open", calls, |calls| {
        let mut run = by_hand;
        (calls.open(selectors, &c, &mut run), run)
    });
    same("feed", calls, |calls| {
        let mut run = by_hand;
        (calls.feed(&mut run, &a, &b), run)
    });
    same("read", calls, |calls| {
        let mut d = before.clone();
        (calls.read(&by_hand, &mut d), d)
    });
    let n = some_length(random, MARK_WORDS);
    let before = random.words(n);
    same("marks", calls, |calls| {
        let mut marks = before.clone();
        (calls.marks(&by_hand, &mut marks), marks)
    });
}

fn scales(calls: &[Table], random: &mut Random) {
    let selectors = [6, 3, 5, 5].map(|limit| random.below(limit));
    let nm = some_length(random, 32);
    let metadata = random.words(nm);
    let lanes = if selectors[1] == 0 { 16 } else { 8 };
    let no = some_length(random, lanes * selectors[0] as usize);
    let before: Vec<i32> = random.words(no).iter().map(|word| *word as i32).collect();
    same("scale", calls, |c| {
        let mut out = before.clone();
        (c.scale(selectors, &metadata, &mut out), out)
    });
}

/// Any layout where the kind or the role is none: the call is refused whatever the lengths are.
fn some_layout(kind: u32, role: u32) -> Layout {
    Layout::of(kind.clamp(1, 14), role.min(2))
}

fn some_length(random: &mut Random, right: usize) -> usize {
    match random.below(32) {
        0 => 0,
        1 => right + 1,
        2 => right.saturating_sub(1),
        _ => right,
    }
}

/// Kind, signs and mode, mostly of the arithmetic kinds.
fn some_selectors(random: &mut Random) -> [u32; 3] {
    let kind = match random.below(16) {
        0 => random.below(16),
        _ => [1, 2, 3, 4, 5, 11, 12, 13, 14][random.below(9) as usize],
    };
    let signs = match kind {
        1 | 13 | 14 if random.below(4) > 0 => 0,
        _ => random.below(5),
    };
    let mode = match random.below(16) {
        0 => 2,
        _ => random.below(2),
    };
    [kind, signs, mode]
}

/// A warp buffer whose words are random or, so that totals reach the limits, extreme.
fn some_warp(random: &mut Random, kind: u32, role: u32) -> Vec<u32> {
    let n = some_length(random, some_layout(kind, role).warp_length());
    let mut words = random.words(n);
    match random.below(4) {
        0 => words.iter_mut().for_each(|word| *word = extreme(*word)),
        1 => words.fill(0x8080_8080),
        _ => {}
    }
    words
}

fn extreme(word: u32) -> u32 {
    let near = word / 4 % [16, 4096][word as usize / 2 % 2];
    match word % 2 {
        0 => 0x7fff_ffff - near,
        _ => 0x8000_0000 + near,
    }
}

/// Sums are random or, so that some are clamped, extreme.
fn some_run(random: &mut Random, [kind, signs, mode]: [u32; 3]) -> Run {
    let mut run = [0; RUN_WORDS];
    run.copy_from_slice(&random.words(RUN_WORDS));
    let blocks = MAX_BLOCKS + 1 - random.below(4);
    run[..4].copy_from_slice(&[kind, signs, mode, blocks]);
    let (sums, marks) = run[4..].split_at_mut(SUMS);
    if random.below(2) == 0 {
        sums.iter_mut().for_each(|sum| *sum = extreme(*sum));
    }
    fewer_marks(random, marks, words_marked(kind, mode));
    run
}

/// Leaves any, those in so many words, a single one, or none.
fn fewer_marks(random: &mut Random, marks: &mut [u32], words: usize) {
    match random.below(8) {
        0 => {}
        1 | 2 => marks[words..].fill(0),
        3 => {
            marks.fill(0);
            let at = random.below(MARK_WORDS as u32);
            marks[at as usize] = 1 << random.below(32);
        }
        _ => marks.fill(0),
    }
}

/// Words of marks that a run may have: none where it cannot clamp, and none past its last sum.
fn words_marked(kind: u32, mode: u32) -> usize {
    if mode != 1 || [1, 13, 14].contains(&kind) {
        return 0;
    }
    some_layout(kind, 2).warp_length().min(SUMS) / 32
}
