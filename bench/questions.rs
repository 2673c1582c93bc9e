//! Where an element sits and who holds a place, a million questions at a time: the library, plain C
//! with the rule, and plain C with the tables for A of kind 5.

use crate::plain::Layout;
use crate::random::Random;
use crate::wazimroot::{Calls, Table, LIBRARY};
use std::hint::black_box;
use std::ptr::read_volatile;

pub const QUESTIONS: usize = 1_000_000;
const TRIALS: usize = 200_000;

#[rustfmt::skip]
extern "C" {
    fn plain_c_place(kind: u32, role: u32, lane: u32, element: u32, out: *mut u32) -> u64;
    fn plain_c_find(kind: u32, role: u32, row: u32, column: u32, out: *mut u32) -> u64;
    fn plain_c_place_by_table(kind: u32, role: u32, lane: u32, element: u32, out: *mut u32) -> u64;
    fn plain_c_find_by_table(kind: u32, role: u32, row: u32, column: u32, out: *mut u32) -> u64;
}

pub const NAMES: [&str; 3] = [
    "the library",
    "plain C with the rule",
    "plain C with the tables",
];

static TABLES: [Table; 3] = [
    LIBRARY,
    Table {
        place: plain_c_place,
        find: plain_c_find,
        ..LIBRARY
    },
    Table {
        place: plain_c_place_by_table,
        find: plain_c_find_by_table,
        ..LIBRARY
    },
];

/// By a read that the compiler cannot see through: it inlines none of the three.
pub fn tables() -> [Table; 3] {
    // SAFETY: a whole, aligned static.
    unsafe { read_volatile(&TABLES) }
}

#[derive(Clone, Copy)]
pub enum Asked {
    Place,
    Find,
}

pub struct Questions {
    pub name: String,
    asked: Asked,
    kind: u32,
    pairs: Vec<[u32; 2]>,
}

impl Questions {
    /// Random lanes and elements, or rows and columns, of the kind's A.
    pub fn new(asked: Asked, kind: u32, random: &mut Random) -> Questions {
        let l = Layout::of(kind, 0);
        let (name, limits) = match asked {
            Asked::Place => ("place", [32, l.elements()]),
            Asked::Find => ("find", [l.rows, l.columns]),
        };
        let pair = |_| limits.map(|limit| random.below(limit as u32));
        Questions {
            name: format!("{name} in A of kind {kind}"),
            asked,
            kind,
            pairs: (0..QUESTIONS).map(pair).collect(),
        }
    }

    /// Asks them all; each has to be answered. What was written is looked at once, at the end: to read
    /// it after each question would wait for the stores, and that would be measured.
    pub fn ask(&self, calls: &Table) {
        let mut out = [0; 4];
        let mut refused = 0;
        for &[first, second] in &self.pairs {
            refused |= answer(calls, self.asked, [self.kind, 0, first, second], &mut out);
        }
        assert_eq!(refused, 0, "a measured question is refused");
        black_box(out);
    }
}

/// The reverse question leaves the last two numbers as they are.
fn answer(calls: &Table, asked: Asked, numbers: [u32; 4], out: &mut [u32; 4]) -> u64 {
    let [kind, role, first, second] = numbers;
    match asked {
        Asked::Place => calls.place(kind, role, first, second, out),
        Asked::Find => {
            let pair = (&mut out[..2]).try_into().expect("two of four");
            calls.find(kind, role, first, second, pair)
        }
    }
}

/// The three on the same random questions, legal and not: the same answers, or nothing is measured.
pub fn agree(calls: &[Table; 3], random: &mut Random) {
    for _ in 0..TRIALS {
        let question = [16, 4, 36, 300].map(|limit| random.below(limit));
        for asked in [Asked::Place, Asked::Find] {
            let whole = |calls: &Table| {
                let mut out = [7; 4];
                (answer(calls, asked, question, &mut out), out)
            };
            let first = whole(&calls[0]);
            for (other, name) in calls.iter().zip(NAMES).skip(1) {
                if whole(other) != first {
                    eprintln!("{question:?}: {} and {name} differ", NAMES[0]);
                    std::process::exit(1);
                }
            }
        }
    }
}
