//! What is measured. Each case has several random inputs and takes them in turn.

use crate::plain::Layout;
use crate::random::Random;
use crate::wazimroot::{Calls, Table, MAX_BLOCKS, RUN_WORDS};

/// Few enough that the inputs of a case stay in the cache.
const INPUTS: usize = 8;

pub struct Case {
    pub name: String,
    /// Makes so many calls, each of which has to be accepted.
    pub repeat: Box<dyn FnMut(&Table, usize)>,
}

fn case(name: String, mut call: impl FnMut(&Table, usize) -> u64 + 'static) -> Case {
    let repeat = move |calls: &Table, count: usize| {
        for turn in 0..count {
            assert_eq!(call(calls, turn % INPUTS), 0, "a measured call is refused");
        }
    };
    Case {
        name,
        repeat: Box::new(repeat),
    }
}

pub fn all(random: &mut Random) -> Vec<Case> {
    let fragments = [1, 2, 3, 4, 5, 6, 8, 9, 10, 11, 12, 13, 14]
        .map(|kind| (kind, 0))
        .into_iter()
        .chain([(3, 1), (3, 2)]);
    let steps = [1, 2, 3, 4, 5, 11, 12, 13, 14]
        .into_iter()
        .map(|kind| (kind, 0))
        .chain([(3, 3)]);
    let mut cases = Vec::new();
    cases.extend(
        fragments
            .clone()
            .map(|(kind, role)| unpack(random, kind, role)),
    );
    cases.extend(fragments.map(|(kind, role)| pack(random, kind, role)));
    for (kind, signs) in steps {
        cases.extend([0, 1].map(|mode| step(random, kind, signs, mode)));
    }
    cases.extend([0, 1].map(|mode| run(random, mode)));
    cases.push(marks(random));
    cases.push(scale(random, 4, 0));
    cases.push(scale(random, 1, 1));
    cases
}

fn inputs<T>(one: impl FnMut(usize) -> T) -> Vec<T> {
    (0..INPUTS).map(one).collect()
}

fn unpack(random: &mut Random, kind: u32, role: u32) -> Case {
    let l = Layout::of(kind, role);
    let words = inputs(|_| random.words(l.warp_length()));
    let mut matrix = vec![0; l.matrix_length()];
    case(
        format!("unpack {}", fragment(kind, role)),
        move |calls, turn| calls.unpack(kind, role, &words[turn], &mut matrix),
    )
}

fn pack(random: &mut Random, kind: u32, role: u32) -> Case {
    let l = Layout::of(kind, role);
    let matrices = inputs(|_| random.entries(l.matrix_length(), l.bits));
    let mut words = vec![0; l.warp_length()];
    case(
        format!("pack {}", fragment(kind, role)),
        move |calls, turn| calls.pack(kind, role, &matrices[turn], &mut words),
    )
}

fn step(random: &mut Random, kind: u32, signs: u32, mode: u32) -> Case {
    let warps = inputs(|_| [0, 1, 2].map(|role| warp(random, kind, role)));
    let mut d = warp(random, kind, 2);
    let name = format!("step of kind {kind}, {}", selectors(kind, signs, mode));
    case(name, move |calls, turn| {
        let [a, b, c] = &warps[turn];
        calls.step([kind, signs, mode], a, b, c, &mut d)
    })
}

/// Opened, fed as many blocks as it takes, and read.
fn run(random: &mut Random, mode: u32) -> Case {
    let kind = 3;
    let blocks = inputs(|_| [0, 1].map(|role| warp(random, kind, role)));
    let c = warp(random, kind, 2);
    let mut d = c.clone();
    let mut run = [0; RUN_WORDS];
    let name = format!(
        "run of 4,096 blocks of kind 3, {}",
        selectors(kind, 0, mode)
    );
    case(name, move |calls, _| {
        let mut refused = calls.open([kind, 0, mode], &c, &mut run);
        for block in 0..MAX_BLOCKS as usize {
            let [a, b] = &blocks[block % INPUTS];
            refused |= calls.feed(&mut run, a, b);
        }
        refused | calls.read(&run, &mut d)
    })
}

/// Of runs that clamp, with random sums and marks.
fn marks(random: &mut Random) -> Case {
    let runs = inputs(|_| {
        let mut run = [0; RUN_WORDS];
        run.copy_from_slice(&random.words(RUN_WORDS));
        run[..4].copy_from_slice(&[3, 0, 1, MAX_BLOCKS]);
        run
    });
    let mut marks = [0; 4];
    case(
        "marks of a run of kind 3".to_string(),
        move |calls, turn| calls.marks(&runs[turn], &mut marks),
    )
}

fn scale(random: &mut Random, size: u32, side: u32) -> Case {
    let threads = [2, 4][side as usize];
    let chosen = inputs(|turn| {
        let (byte_id, thread_id) = (random.below(4 / size) * size, turn as u32 % threads);
        ([size, side, byte_id, thread_id], numbers(random))
    });
    let mut out = vec![0; (32 / threads * size) as usize];
    let name = format!("scale, size {size}, side {}", ["A", "B"][side as usize]);
    case(name, move |calls, turn| {
        let (selectors, metadata) = &chosen[turn];
        calls.scale(*selectors, metadata, &mut out)
    })
}

/// Metadata in which no byte is 255.
fn numbers(random: &mut Random) -> Vec<u32> {
    let mut word = || (0..4).fold(0, |word, _| word << 8 | random.below(255));
    (0..32).map(|_| word()).collect()
}

fn warp(random: &mut Random, kind: u32, role: u32) -> Vec<u32> {
    random.words(Layout::of(kind, role).warp_length())
}

fn fragment(kind: u32, role: u32) -> String {
    format!("{} of kind {kind}", ["A", "B", "C"][role as usize])
}

fn selectors(kind: u32, signs: u32, mode: u32) -> String {
    let read = ["", "A unsigned, ", "B unsigned, ", "unsigned, "][signs as usize];
    let modes = if [1, 13, 14].contains(&kind) {
        ["xor", "and"]
    } else {
        ["wraps", "clamps"]
    };
    format!("{read}{}", modes[mode as usize])
}
