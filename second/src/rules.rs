//! The kinds and the places, each as the rules write it.

pub const LANES: u32 = 32;
pub const KINDS: u32 = 14;
/// "Kinds 1 to 5 are the arithmetic kinds." K5: 11 to 14, "all four are arithmetic kinds".
pub const ARITHMETIC: [u32; 9] = [1, 2, 3, 4, 5, 11, 12, 13, 14];
/// Kind 1; K5: "13 and 14 take modes and signs as kind 1 does".
pub const ONE_BIT: [u32; 3] = [1, 13, 14];

pub const A: u32 = 0;
pub const B: u32 = 1;
/// C or D.
pub const C: u32 = 2;

/// One line of the table "Kinds".
pub struct Kind {
    pub m: u32,
    pub n: u32,
    pub k: u32,
    /// Bits of an A or B element.
    pub bits: u32,
    /// Words per lane of A, B and C/D.
    pub words: [u32; 3],
}

/// The table "Kinds", and K5's; `number` is 1 to 14.
pub fn kind(number: u32) -> Kind {
    let (m, n, k, bits, words) = match number {
        1 => (8, 8, 128, 1, [1, 1, 2]),
        2 => (16, 8, 16, 8, [2, 1, 4]),
        3 => (16, 8, 32, 8, [4, 2, 4]),
        4 => (16, 8, 32, 4, [2, 1, 4]),
        5 => (16, 8, 64, 4, [4, 2, 4]),
        6 => (16, 8, 8, 16, [2, 1, 4]),
        7 => (16, 8, 8, 16, [2, 1, 2]),
        8 => (16, 8, 8, 32, [4, 2, 4]),
        9 => (16, 8, 8, 64, [8, 4, 8]),
        10 => (8, 8, 4, 64, [2, 2, 4]),
        11 => (8, 8, 16, 8, [1, 1, 2]),
        12 => (8, 8, 32, 4, [1, 1, 2]),
        13 => (16, 8, 128, 1, [2, 1, 4]),
        14 => (16, 8, 256, 1, [4, 2, 4]),
        _ => unreachable!("kind {number}"),
    };
    Kind {
        m,
        n,
        k,
        bits,
        words,
    }
}

/// Rows and columns: A is M by K, B is K by N, C and D are M by N.
pub fn size(number: u32, role: u32) -> (u32, u32) {
    let kind = kind(number);
    match role {
        A => (kind.m, kind.k),
        B => (kind.k, kind.n),
        _ => (kind.m, kind.n),
    }
}

/// "C/D elements have 32 bits, except 16 in kind 7 and 64 in kinds 9 and 10."
pub fn bits(number: u32, role: u32) -> u32 {
    match (role, number) {
        (C, 7) => 16,
        (C, 9 | 10) => 64,
        (C, _) => 32,
        _ => kind(number).bits,
    }
}

/// "Where an element sits": row and column of element `i` of a lane.
pub fn place(number: u32, role: u32, lane: u32, i: u32) -> (u32, u32) {
    let (g, t) = (lane / 4, lane % 4);
    match role {
        A => (row_a(number, g, i), column_a(number, t, i)),
        B => (row_b(number, t, i), g),
        _ => place_c(number, g, t, i),
    }
}

/// K9: "the word within the lane and the lowest bit in that word" of each element of a lane, laid one
/// behind the other from the low bit of the first word up.
pub fn spots(bits: u32, elements: u32) -> Vec<(u32, u32)> {
    let (mut word, mut bit) = (0, 0);
    let mut spots = Vec::new();
    for _ in 0..elements {
        spots.push((word, bit));
        bit += bits;
        while bit >= 32 {
            bit -= 32;
            word += 1;
        }
    }
    spots
}

fn row_a(number: u32, g: u32, i: u32) -> u32 {
    let upper = match number {
        1 | 10 | 11 | 12 => true,
        2 => i < 4,
        3 => i < 4 || (8..12).contains(&i),
        4 => i < 8,
        5 => i < 8 || (16..24).contains(&i),
        6 | 7 => i < 2,
        8 | 9 => i % 2 == 0,
        13 => i < 32,
        14 => i < 32 || (64..96).contains(&i),
        _ => unreachable!("kind {number}"),
    };
    if upper {
        g
    } else {
        g + 8
    }
}

fn column_a(number: u32, t: u32, i: u32) -> u32 {
    match number {
        1 => 32 * t + i,
        2 => 4 * t + i % 4,
        3 => 4 * t + i % 4 + if i >= 8 { 16 } else { 0 },
        4 => 8 * t + i % 8,
        5 => 8 * t + i % 8 + if i >= 16 { 32 } else { 0 },
        6 | 7 => 2 * t + i % 2,
        8 | 9 if i < 2 => t,
        8 | 9 => t + 4,
        10 => t,
        11 => 4 * t + i,
        12 => 8 * t + i,
        13 => 32 * t + i % 32,
        14 => 32 * t + i % 32 + if i >= 64 { 128 } else { 0 },
        _ => unreachable!("kind {number}"),
    }
}

fn row_b(number: u32, t: u32, i: u32) -> u32 {
    match number {
        1 => 32 * t + i,
        2 => 4 * t + i,
        3 => 4 * t + i % 4 + if i >= 4 { 16 } else { 0 },
        4 => 8 * t + i,
        5 => 8 * t + i % 8 + if i >= 8 { 32 } else { 0 },
        6 | 7 => 2 * t + i,
        8 | 9 => t + 4 * i,
        10 => t,
        11 => 4 * t + i,
        12 => 8 * t + i,
        13 => 32 * t + i,
        14 => 32 * t + i % 32 + if i >= 32 { 128 } else { 0 },
        _ => unreachable!("kind {number}"),
    }
}

fn place_c(number: u32, g: u32, t: u32, i: u32) -> (u32, u32) {
    match number {
        1 | 10 | 11 | 12 => (g, 2 * t + i),
        _ if i < 2 => (g, 2 * t + i % 2),
        _ => (g + 8, 2 * t + i % 2),
    }
}
