//! The rules' places as tables, one for each kind and role, and the reverse question by search.

use crate::report::Difference;
use crate::rules::{self, KINDS, LANES};

/// How the elements of one kind and role lie.
pub struct Layout {
    pub rows: u32,
    pub columns: u32,
    pub bits: usize,
    /// Elements of a lane.
    pub elements: u32,
    /// Words of a lane.
    pub words: usize,
    places: Vec<(u32, u32)>,
    spots: Vec<(u32, u32)>,
    holders: Vec<(u32, u32)>,
}

impl Layout {
    fn new(kind: u32, role: u32) -> Result<Layout, Difference> {
        let (rows, columns) = rules::size(kind, role);
        let bits = rules::bits(kind, role);
        let words = rules::kind(kind).words[role as usize];
        let mut layout = Layout {
            rows,
            columns,
            bits: bits as usize,
            elements: words * 32 / bits,
            words: words as usize,
            places: Vec::new(),
            spots: rules::spots(bits, words * 32 / bits),
            holders: Vec::new(),
        };
        for lane in 0..LANES {
            for element in 0..layout.elements {
                layout.places.push(rules::place(kind, role, lane, element));
            }
        }
        for row in 0..rows {
            for column in 0..columns {
                let holder = layout.search(row, column).map_err(|times| {
                    let place = format!("kind {kind}, role {role}, place ({row}, {column})");
                    Difference::new(format!("the rules: {place} is held {times} times"))
                })?;
                layout.holders.push(holder);
            }
        }
        Ok(layout)
    }

    /// Lane and element of a place, looked for among all lanes and elements; the error is how many
    /// hold it, where that is not one.
    fn search(&self, row: u32, column: u32) -> Result<(u32, u32), usize> {
        let mut holder = (0, 0);
        let mut times = 0;
        for (at, &place) in self.places.iter().enumerate() {
            if place == (row, column) {
                holder = (at as u32 / self.elements, at as u32 % self.elements);
                times += 1;
            }
        }
        if times == 1 {
            Ok(holder)
        } else {
            Err(times)
        }
    }

    /// Row and column; `None` past the last lane or element.
    pub fn place(&self, lane: u32, element: u32) -> Option<(u32, u32)> {
        if lane >= LANES || element >= self.elements {
            return None;
        }
        Some(self.places[(lane * self.elements + element) as usize])
    }

    /// Row, column, word and bit; `None` past the last lane or element.
    pub fn whole_place(&self, lane: u32, element: u32) -> Option<[u32; 4]> {
        let (row, column) = self.place(lane, element)?;
        let (word, bit) = self.spots[element as usize];
        Some([row, column, word, bit])
    }

    /// Lane and element; `None` past the last row or column.
    pub fn holder(&self, row: u32, column: u32) -> Option<[u32; 2]> {
        if row >= self.rows || column >= self.columns {
            return None;
        }
        let (lane, element) = self.holders[(row * self.columns + column) as usize];
        Some([lane, element])
    }

    /// Index in a row-major matrix of an element that is there.
    pub fn index(&self, lane: usize, element: usize) -> usize {
        let (row, column) = self.places[lane * self.elements as usize + element];
        (row * self.columns + column) as usize
    }

    /// Length of a warp buffer.
    pub fn buffer_length(&self) -> usize {
        LANES as usize * self.words
    }

    /// Length of a matrix buffer.
    pub fn matrix_length(&self) -> usize {
        (self.rows * self.columns) as usize
    }
}

/// All layouts, made once.
pub struct Layouts {
    by_kind: Vec<[Layout; 3]>,
}

impl Layouts {
    pub fn new() -> Result<Layouts, Difference> {
        let mut by_kind = Vec::new();
        for kind in 1..=KINDS {
            by_kind.push([
                Layout::new(kind, rules::A)?,
                Layout::new(kind, rules::B)?,
                Layout::new(kind, rules::C)?,
            ]);
        }
        Ok(Layouts { by_kind })
    }

    /// The layout of a kind from 1 to 14 and a role from 0 to 2.
    pub fn of(&self, kind: u32, role: u32) -> &Layout {
        &self.by_kind[kind as usize - 1][role as usize]
    }

    /// As `of`; `None` where there is no such kind or role.
    pub fn get(&self, kind: u32, role: u32) -> Option<&Layout> {
        let roles = self.by_kind.get((kind as usize).checked_sub(1)?)?;
        roles.get(role as usize)
    }
}
