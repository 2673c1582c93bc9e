//! Buffers between two fences of random words, in two copies: one for the library, one for the
//! rules. The copies are equal before a call and must be equal after it, fences and all: a stray
//! write, a missing write and a changed input all show.

use crate::random::{Random, Word};
use crate::report::{shown, Difference};

/// Words of a fence.
const FENCE: usize = 24;
/// The front fence is longer by less than this, so that a buffer starts at every alignment its
/// words allow.
const SHIFTS: usize = 8;
/// The longest buffer there is room for.
pub const LONGEST: usize = 8400;

/// Words shown of a buffer in a difference.
const SHOWN: usize = 12;

pub struct Fenced<T> {
    name: &'static str,
    library: Vec<T>,
    rules: Vec<T>,
    start: usize,
    length: usize,
}

impl<T: Word> Fenced<T> {
    pub fn new(name: &'static str) -> Fenced<T> {
        let room = SHIFTS + FENCE + LONGEST + FENCE;
        Fenced {
            name,
            library: vec![T::default(); room],
            rules: vec![T::default(); room],
            start: FENCE,
            length: 0,
        }
    }

    /// A new buffer of this length with random content, between new fences.
    pub fn lay(&mut self, random: &mut Random, length: usize) {
        self.lay_filled(random, length, Random::fill);
    }

    /// A new buffer of this length with the content that `fill` writes, between new fences.
    pub fn lay_filled(
        &mut self,
        random: &mut Random,
        length: usize,
        fill: impl FnOnce(&mut Random, &mut [T]),
    ) {
        self.start = FENCE + random.below(SHIFTS);
        self.length = length;
        let end = self.end();
        let (before, rest) = self.rules[..end].split_at_mut(self.start);
        let (buffer, after) = rest.split_at_mut(length);
        random.fill(before);
        fill(random, buffer);
        random.fill(after);
        self.library[..end].copy_from_slice(&self.rules[..end]);
    }

    /// New content between the same fences.
    pub fn refill(&mut self, fill: impl FnOnce(&mut [T])) {
        let (start, end) = (self.start, self.start + self.length);
        fill(&mut self.rules[start..end]);
        self.library[start..end].copy_from_slice(&self.rules[start..end]);
    }

    /// Where the fence behind the buffer ends.
    fn end(&self) -> usize {
        self.start + self.length + FENCE
    }

    pub fn library(&self) -> &[T] {
        &self.library[self.start..][..self.length]
    }

    pub fn library_mut(&mut self) -> &mut [T] {
        &mut self.library[self.start..][..self.length]
    }

    pub fn rules(&self) -> &[T] {
        &self.rules[self.start..][..self.length]
    }

    pub fn rules_mut(&mut self) -> &mut [T] {
        &mut self.rules[self.start..][..self.length]
    }
}

/// A buffer laid with the length of an array, lent as that array.
pub fn array<T, const N: usize>(buffer: &[T]) -> &[T; N] {
    buffer.try_into().expect("a buffer of the array's length")
}

pub fn array_mut<T, const N: usize>(buffer: &mut [T]) -> &mut [T; N] {
    buffer.try_into().expect("a buffer of the array's length")
}

/// The two copies of a buffer, whatever its words.
pub trait Copies {
    /// Whether fence, buffer and fence are the same in both.
    fn same(&self) -> bool;
    /// The first word that is not.
    fn first_difference(&self) -> Option<String>;
    /// Name, length and first words.
    fn shortened(&self) -> String;
}

impl<T: Word> Copies for Fenced<T> {
    fn same(&self) -> bool {
        self.library[..self.end()] == self.rules[..self.end()]
    }

    fn first_difference(&self) -> Option<String> {
        let end = self.end();
        let mut pairs = self.library[..end].iter().zip(&self.rules[..end]);
        let at = pairs.position(|(library, rules)| library != rules)?;
        let word = at as i64 - self.start as i64;
        let place = if at < self.start {
            "in the fence before"
        } else if at < self.start + self.length {
            "in"
        } else {
            "in the fence behind"
        };
        let (name, library, rules) = (self.name, self.library[at], self.rules[at]);
        Some(format!(
            "word {word} ({place} {name}): library {library:#x}, rules {rules:#x}"
        ))
    }

    fn shortened(&self) -> String {
        let mut text = format!("{} of length {}:", self.name, self.length);
        for word in self.rules().iter().take(SHOWN) {
            text += &format!(" {word:x}");
        }
        if self.length > SHOWN {
            text += " ..";
        }
        text
    }
}

/// Compares a call's answers and all its buffers; the answer where they are the same. The arguments
/// are those that are no buffers.
pub fn compare(
    library: u64,
    rules: u64,
    buffers: &[&dyn Copies],
    arguments: impl FnOnce() -> String,
) -> Result<u64, Difference> {
    if library == rules && buffers.iter().all(|buffer| buffer.same()) {
        return Ok(rules);
    }
    Err(difference(library, rules, buffers, arguments()))
}

fn difference(library: u64, rules: u64, buffers: &[&dyn Copies], arguments: String) -> Difference {
    let mut lines = vec![arguments];
    lines.extend(buffers.iter().map(|buffer| buffer.shortened()));
    lines.push(format!(
        "library {}, rules {}",
        shown(library),
        shown(rules)
    ));
    lines.extend(
        buffers
            .iter()
            .filter_map(|buffer| buffer.first_difference()),
    );
    Difference::new(lines.join("\n  "))
}
