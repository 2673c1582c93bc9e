//! "Bench figures", asked of the library and of the rules alike.

use crate::report::{shown, Difference, Tally};
use crate::run::WORDS;
use crate::wazimroot::Calls;

/// Kind, role, lane, element; row, column, word, bit.
const PLACES: [([u32; 4], [u32; 4]); 15] = [
    ([5, 0, 0, 16], [0, 32, 2, 0]),
    ([3, 0, 5, 9], [1, 21, 2, 8]),
    ([6, 0, 5, 1], [1, 3, 0, 16]),
    ([8, 0, 5, 1], [9, 1, 1, 0]),
    ([3, 1, 31, 7], [31, 7, 1, 24]),
    ([2, 2, 6, 3], [9, 5, 3, 0]),
    ([10, 1, 6, 0], [2, 1, 0, 0]),
    // K9: "the first three lines become `15 63 3 28`, `9 1 1 0` and `0 0 0 0`".
    ([5, 0, 0x1f, 0x1f], [15, 63, 3, 28]),
    ([8, 0, 0x05, 0x01], [9, 1, 1, 0]),
    ([0x0b, 0, 0, 0], [0, 0, 0, 0]),
    // Places of K5's kinds; "for 64-bit elements the low word, bit 0"; two elements of 16 bits a word.
    ([14, 0, 31, 127], [15, 255, 3, 31]),
    ([13, 0, 5, 33], [9, 33, 1, 1]),
    ([12, 1, 31, 7], [31, 7, 0, 28]),
    ([9, 0, 0, 3], [8, 4, 6, 0]),
    ([7, 2, 0, 3], [8, 1, 1, 16]),
];

/// Kind, role, row, column; lane, element.
const REVERSE: [([u32; 4], [u32; 2]); 2] = [([4, 0, 9, 13], [5, 13]), ([9, 0, 15, 7], [31, 3])];

const MOST: u32 = 2_147_483_647;
const LEAST: u32 = 1 << 31;
/// Four bytes of -128, and of 127.
const LEAST_BYTES: u32 = 0x8080_8080;
const MOST_BYTES: u32 = 0x7f7f_7f7f;

/// Kind, signs, mode; every word of A, B and C; every word of D.
const STEPS: [([u32; 3], [u32; 3], i32); 15] = [
    ([3, 0, 0], [LEAST_BYTES, LEAST_BYTES, 0], 524_288),
    ([3, 0, 0], [LEAST_BYTES, LEAST_BYTES, MOST], -2_146_959_361),
    ([3, 0, 1], [LEAST_BYTES, LEAST_BYTES, MOST], 2_147_483_647),
    ([1, 0, 0], [u32::MAX, 0, 0], 128),
    ([1, 0, 1], [u32::MAX, 0, 0], 0),
    ([1, 0, 0], [u32::MAX, 0, MOST], -2_147_483_521),
    ([2, 0, 0], [u32::MAX, 0x0101_0101, 0], -16),
    ([2, 1, 0], [u32::MAX, 0x0101_0101, 0], 4_080),
    // K5's kinds.
    ([11, 0, 0], [LEAST_BYTES, LEAST_BYTES, 0], 262_144),
    ([12, 0, 0], [0x8888_8888, 0x8888_8888, 0], 2_048),
    ([12, 3, 0], [u32::MAX, u32::MAX, 0], 7_200),
    ([13, 0, 0], [u32::MAX, 0, 0], 128),
    ([13, 0, 1], [u32::MAX, 0, 0], 0),
    ([14, 0, 0], [u32::MAX, 0, 0], 256),
    ([14, 0, 1], [u32::MAX, u32::MAX, 0], 256),
];

/// Words of A, B and C of the kinds of the figures.
fn lengths(kind: u32) -> [usize; 3] {
    match kind {
        1 | 11 | 12 => [32, 32, 64],
        2 | 13 => [64, 32, 128],
        _ => [128, 64, 128],
    }
}

const NO_MARK: [u32; 4] = [0; 4];
const ALL_MARKS: [u32; 4] = [u32::MAX; 4];

/// K12: every word of C on opening; then for each block every word of A and B, every sum after it,
/// and the marks. Kind 3, signs 0, mode 1.
type Marked = (u32, &'static [([u32; 2], i32, [u32; 4])]);

const MARKED: [Marked; 4] = [
    (
        MOST,
        &[
            ([0, 0], 2_147_483_647, NO_MARK),
            ([LEAST_BYTES, LEAST_BYTES], 2_147_483_647, ALL_MARKS),
            ([LEAST_BYTES, MOST_BYTES], 2_146_963_455, ALL_MARKS),
            ([0, 0], 2_146_963_455, ALL_MARKS),
        ],
    ),
    (
        LEAST,
        &[
            ([0, 0], -2_147_483_648, NO_MARK),
            ([LEAST_BYTES, MOST_BYTES], -2_147_483_648, ALL_MARKS),
            ([LEAST_BYTES, LEAST_BYTES], -2_146_959_360, ALL_MARKS),
        ],
    ),
    (
        MOST - 524_288,
        &[
            ([LEAST_BYTES, LEAST_BYTES], 2_147_483_647, NO_MARK),
            ([LEAST_BYTES, MOST_BYTES], 2_146_963_455, NO_MARK),
        ],
    ),
    (
        LEAST + 520_192,
        &[
            ([LEAST_BYTES, MOST_BYTES], -2_147_483_648, NO_MARK),
            ([LEAST_BYTES, LEAST_BYTES], -2_146_959_360, NO_MARK),
        ],
    ),
];

/// K12: kind; the word of C that is 2,147,483,647, the others being 0; the marks after the -128
/// block. Signs 0, mode 1.
const ONE_MARK: [(u32, usize, [u32; 4]); 6] = [
    (3, 0, [1, 0, 0, 0]),
    (3, 31, [1 << 31, 0, 0, 0]),
    (3, 32, [0, 1, 0, 0]),
    (3, 127, [0, 0, 0, 1 << 31]),
    (11, 5, [1 << 5, 0, 0, 0]),
    (11, 63, [0, 1 << 31, 0, 0]),
];

/// K12: kind, signs, mode; the mark that a run made up by hand has; the answer where it is read.
const BY_HAND: [([u32; 3], usize, u64); 6] = [
    ([11, 0, 1], 63, 0),
    ([11, 0, 1], 64, 10),
    ([3, 3, 1], 127, 0),
    ([3, 3, 0], 127, 10),
    ([1, 0, 1], 0, 10),
    ([14, 0, 1], 0, 10),
];

/// Size, byte-id; the numbers of one lane with the metadata word 807F0100.
const SCALES: [(u32, u32, &[i32]); 5] = [
    (1, 0, &[-127]),
    (1, 1, &[-126]),
    (1, 2, &[0]),
    (1, 3, &[1]),
    (2, 2, &[0, 1]),
];

/// K4: size, byte-id; the number of a lane with the metadata word FF7F0100.
const SCALES_BESIDE_A_NAN: [(u32, u32, &[i32]); 3] =
    [(1, 0, &[-127]), (1, 1, &[-126]), (1, 2, &[0])];

/// Lane words of the record whose byte j is j: word number, content.
const TEMPLATE: [(usize, u32); 5] = [
    (0, 0x1810_0800),
    (1, 0x9890_8880),
    (10, 0x3931_2921),
    (11, 0xb9b1_a9a1),
    (63, 0xfff7_efe7),
];

/// Goes on where a figure is as the paper has it.
fn equal<T: PartialEq + std::fmt::Debug>(
    figure: impl FnOnce() -> String,
    given: T,
    paper: T,
) -> Result<(), Difference> {
    if given == paper {
        return Ok(());
    }
    let figure = figure();
    Err(Difference::new(format!(
        "{figure}: gives {given:?}, the paper has {paper:?}"
    )))
}

fn accepted(figure: impl FnOnce() -> String, answer: u64) -> Result<(), Difference> {
    equal(figure, shown(answer), shown(0))
}

fn places(calls: &dyn Calls) -> Result<(), Difference> {
    for (numbers, paper) in PLACES {
        let [kind, role, lane, element] = numbers;
        let mut out = [u32::MAX; 4];
        let answer = calls.place(kind, role, lane, element, &mut out);
        equal(|| format!("place {numbers:?}"), (answer, out), (0, paper))?;
    }
    for (numbers, paper) in REVERSE {
        let [kind, role, row, column] = numbers;
        let mut out = [u32::MAX; 2];
        let answer = calls.find(kind, role, row, column, &mut out);
        equal(|| format!("find {numbers:?}"), (answer, out), (0, paper))?;
    }
    let mut out = [7; 4];
    let answer = calls.place(0x0f, 0, 0, 0, &mut out);
    equal(
        || "place of kind 15".to_string(),
        (answer, out),
        (1, [7; 4]),
    )
}

fn steps(calls: &dyn Calls) -> Result<(), Difference> {
    for (selector, [a, b, c], paper) in STEPS {
        let [na, nb, nc] = lengths(selector[0]);
        let (a, b, c) = (vec![a; na], vec![b; nb], vec![c; nc]);
        let mut d = vec![!(paper as u32); nc];
        let figure = || format!("step {selector:?}");
        accepted(figure, calls.step(selector, &a, &b, &c, &mut d))?;
        for word in d {
            equal(figure, word as i32, paper)?;
        }
    }
    Ok(())
}

fn run_sums(calls: &dyn Calls, run: &[u32; WORDS], paper: i32) -> Result<(), Difference> {
    let figure = || format!("run after {} blocks", run[3]);
    let mut d = [0; 128];
    accepted(figure, calls.read(run, &mut d))?;
    for word in d {
        equal(figure, word as i32, paper)?;
    }
    Ok(())
}

fn run_marks(calls: &dyn Calls, run: &[u32; WORDS], paper: [u32; 4]) -> Result<(), Difference> {
    let mut marks = [0x5a5a_5a5a; 4];
    let answer = calls.marks(run, &mut marks);
    let figure = || format!("marks after {} blocks", run[3]);
    equal(figure, (answer, marks), (0, paper))
}

/// The -128 block fed 4,095 times, once more, and once too often.
fn runs(calls: &dyn Calls) -> Result<(), Difference> {
    for (mode, paper, marks) in [(0, -2_147_483_648, NO_MARK), (1, 2_147_483_647, ALL_MARKS)] {
        let (a, b) = ([LEAST_BYTES; 128], [LEAST_BYTES; 64]);
        let mut run = [u32::MAX; WORDS];
        let figure = || format!("run of kind 3, mode {mode}");
        accepted(figure, calls.open([3, 0, mode], &[0; 128], &mut run))?;
        for _ in 0..4095 {
            accepted(figure, calls.feed(&mut run, &a, &b))?;
        }
        run_sums(calls, &run, 2_146_959_360)?;
        run_marks(calls, &run, NO_MARK)?;
        accepted(figure, calls.feed(&mut run, &a, &b))?;
        run_sums(calls, &run, paper)?;
        run_marks(calls, &run, marks)?;
        let full = run;
        let answer = calls.feed(&mut run, &a, &b);
        equal(figure, (answer, run), (9, full))?;
    }
    most_ones(calls)
}

/// K5: kind 14, A all ones and B zero, fed 4,096 times from 0.
fn most_ones(calls: &dyn Calls) -> Result<(), Difference> {
    let mut run = [u32::MAX; WORDS];
    let figure = || "run of kind 14".to_string();
    accepted(figure, calls.open([14, 0, 0], &[0; 128], &mut run))?;
    for _ in 0..4096 {
        accepted(figure, calls.feed(&mut run, &[u32::MAX; 128], &[0; 64]))?;
    }
    run_sums(calls, &run, 1_048_576)?;
    run_marks(calls, &run, NO_MARK)
}

fn marked_run(calls: &dyn Calls, (c, blocks): Marked) -> Result<(), Difference> {
    let mut run = [u32::MAX; WORDS];
    let figure = || format!("marks of a run from {}", c as i32);
    accepted(figure, calls.open([3, 0, 1], &[c; 128], &mut run))?;
    run_marks(calls, &run, NO_MARK)?;
    for &([a, b], sum, marks) in blocks {
        accepted(figure, calls.feed(&mut run, &[a; 128], &[b; 64]))?;
        run_sums(calls, &run, sum)?;
        run_marks(calls, &run, marks)?;
    }
    Ok(())
}

fn one_mark(calls: &dyn Calls, kind: u32, word: usize, paper: [u32; 4]) -> Result<(), Difference> {
    let [na, nb, nc] = lengths(kind);
    let mut c = vec![0; nc];
    c[word] = MOST;
    let mut run = [u32::MAX; WORDS];
    let figure = || format!("mark {word} of kind {kind}");
    accepted(figure, calls.open([kind, 0, 1], &c, &mut run))?;
    let (a, b) = (vec![LEAST_BYTES; na], vec![LEAST_BYTES; nb]);
    accepted(figure, calls.feed(&mut run, &a, &b))?;
    run_marks(calls, &run, paper)
}

/// The mark is read, or the run refused and nothing written.
fn by_hand(calls: &dyn Calls, selector: [u32; 3], j: usize, paper: u64) -> Result<(), Difference> {
    let mut run = [0; WORDS];
    run[..3].copy_from_slice(&selector);
    run[132 + j / 32] = 1 << (j % 32);
    let figure = || format!("run {selector:?} with mark {j}");
    let mut marks = [7; 4];
    let answer = calls.marks(&run, &mut marks);
    let written = if paper == 0 { &run[132..] } else { &[7; 4] };
    equal(figure, (answer, &marks[..]), (paper, written))
}

/// K12.
fn marks(calls: &dyn Calls) -> Result<(), Difference> {
    for run in MARKED {
        marked_run(calls, run)?;
    }
    for (kind, word, paper) in ONE_MARK {
        one_mark(calls, kind, word, paper)?;
    }
    for (selector, j, paper) in BY_HAND {
        by_hand(calls, selector, j, paper)?;
    }
    Ok(())
}

/// On both sides, with this metadata word in every lane, each lane gives these numbers.
fn scale_lanes(
    calls: &dyn Calls,
    word: u32,
    (size, byte_id, paper): (u32, u32, &[i32]),
) -> Result<(), Difference> {
    for (side, lanes) in [(0, 16), (1, 8)] {
        let selector = [size, side, byte_id, 0];
        let figure = || format!("scale {selector:?} of {word:x}");
        let mut out = vec![1000; lanes * size as usize];
        accepted(figure, calls.scale(selector, &[word; 32], &mut out))?;
        equal(figure, out, paper.repeat(lanes))?;
    }
    Ok(())
}

/// Refused with this answer, and nothing is written.
fn scale_refused(
    calls: &dyn Calls,
    selector: [u32; 4],
    metadata: &[u32],
    paper: u64,
) -> Result<(), Difference> {
    let lanes = if selector[1] == 0 { 16 } else { 8 };
    let before = vec![1000; lanes * selector[0] as usize];
    let mut out = before.clone();
    let answer = calls.scale(selector, metadata, &mut out);
    equal(
        || format!("scale {selector:?}, refused"),
        (answer, out),
        (paper, before),
    )
}

fn scales(calls: &dyn Calls) -> Result<(), Difference> {
    for lane in SCALES {
        scale_lanes(calls, 0x807f_0100, lane)?;
    }
    scale_refused(calls, [2, 0, 1, 0], &[0x807f_0100; 32], 2 << 32 | 8)?;
    for lane in SCALES_BESIDE_A_NAN {
        scale_lanes(calls, 0xff7f_0100, lane)?;
    }
    for side in [0, 1] {
        scale_refused(calls, [1, side, 3, 0], &[0xff7f_0100; 32], 12)?;
    }
    let mut metadata = [0; 32];
    metadata[1] = 0x00ff_0000;
    scale_refused(calls, [4, 0, 0, 0], &metadata, 6 << 32 | 12)?;
    let figure = || "scale of byte-id 0, byte 2 of lane 1 being 255".to_string();
    let mut out = [1000; 16];
    accepted(figure, calls.scale([1, 0, 0, 0], &metadata, &mut out))?;
    equal(figure, out, [-127; 16])
}

fn templates(calls: &dyn Calls) -> Result<(), Difference> {
    let mut record = [0; 256];
    for (j, byte) in record.iter_mut().enumerate() {
        *byte = j as u8;
    }
    let (mut words, mut back) = ([0; 64], [0; 256]);
    let figure = || "template record".to_string();
    accepted(figure, calls.template_read(&record, &mut words))?;
    for (word, paper) in TEMPLATE {
        equal(|| format!("template word {word}"), words[word], paper)?;
    }
    accepted(figure, calls.template_write(&words, &mut back))?;
    equal(figure, back, record)
}

/// A figure group: its name and its check.
type Group = (&'static str, fn(&dyn Calls) -> Result<(), Difference>);

const GROUPS: [Group; 6] = [
    ("places", places),
    ("steps", steps),
    ("runs", runs),
    ("marks", marks),
    ("scales", scales),
    ("templates", templates),
];

pub fn figures(library: &dyn Calls, rules: &dyn Calls) -> Result<Tally, Difference> {
    let mut tally = Tally::new("figures");
    for (name, group) in GROUPS {
        for (side, calls) in [("library", library), ("rules", rules)] {
            group(calls).map_err(|it| it.within(&format!("figures, {name}, {side}")))?;
            tally.count(0);
        }
    }
    Ok(tally)
}
