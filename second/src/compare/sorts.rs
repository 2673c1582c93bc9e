//! The sorts of step records that the random files have.

use super::records::{Made, Maker, Way, HALVES, TAILS};
use crate::random::Random;
use crate::replay::{self, Verdict, RECORD};
use crate::rules::{ARITHMETIC, ONE_BIT};

/// What a sort of records has, and how one is made.
pub type Sort = (&'static str, fn(&mut Maker) -> Made);

pub const SORTS: [Sort; 21] = [
    ("nothing wrong", |maker| {
        let head = maker.head_of(&ARITHMETIC);
        (maker.right(head), Some(Verdict::Ok))
    }),
    ("one place wrong", |maker| {
        let places = |maker: &mut Maker, all| vec![maker.random.below(all)];
        maker.wrong(&ARITHMETIC, places)
    }),
    ("several places wrong", |maker| {
        maker.wrong(&ARITHMETIC, |maker, all| {
            let mut places: Vec<usize> = (0..all).collect();
            maker.random.shuffle(&mut places);
            places.truncate(maker.random.pick(&[2, 3, 10, all]));
            places.sort();
            places
        })
    }),
    (
        "another word wrong before that of the first place",
        |maker| maker.wrong(&HALVES, |maker, all| maker.turned_places(all)),
    ),
    ("the last place wrong", |maker| {
        maker.wrong(&ARITHMETIC, |_, all| vec![all - 1])
    }),
    ("a bit of A, B or C wrong", |maker| {
        let head = maker.head_of(&ARITHMETIC);
        let mut record = maker.right(head);
        let part = maker.random.below(3);
        let [used, _] = replay::used_and_tail(maker.layouts, head[0], part);
        let at = used.start + maker.random.below(used.len());
        record[at] ^= 1 << maker.random.below(8);
        (record, None)
    }),
    ("the head of another", |maker| {
        let head = maker.head_of(&ARITHMETIC);
        let mut record = maker.right(head);
        let other = maker.head_of(&ARITHMETIC);
        let at = maker.random.below(3);
        record[at] = other[at] as u8;
        (record, None)
    }),
    ("reserved byte not zero", |maker| {
        let head = maker.head_of(&ARITHMETIC);
        let record = maker.right(head);
        maker.reserved(record)
    }),
    ("unused tail not zero", |maker| {
        let head = maker.head_of(&TAILS);
        let record = maker.right(head);
        maker.tail(record)
    }),
    ("kind not 1 to 14", |maker| {
        let kind = maker.unknown_kind();
        (maker.any_body(kind), Some(Verdict::Refused(1)))
    }),
    ("kinds 6 to 10", |maker| {
        let kind = maker.float_kind();
        (maker.any_body(kind), Some(Verdict::Refused(3)))
    }),
    ("signs over 3", |maker| maker.selectors(signs_over_3)),
    ("mode over 1", |maker| maker.selectors(mode_over_1)),
    ("mode 254", |maker| maker.selectors(mode_254)),
    ("mode 255 with signs not 0", |maker| {
        maker.selectors(mode_255)
    }),
    ("one-bit kind with signs not 0", |maker| {
        maker.selectors(one_bit_signs)
    }),
    ("11 with 1", |maker| {
        let kind = maker.unknown_kind();
        let record = maker.any_body(kind);
        maker.reserved(record)
    }),
    ("11 with 3", |maker| {
        let kind = maker.float_kind();
        let record = maker.any_body(kind);
        maker.reserved(record)
    }),
    ("11 with 4", |maker| {
        let ways: [Way; 5] = [signs_over_3, mode_over_1, mode_254, mode_255, one_bit_signs];
        let way = maker.random.pick(&ways);
        let (record, _) = maker.selectors(way);
        match TAILS.contains(&replay::head(&record)[0]) && maker.random.one_in(2) {
            true => maker.tail(record),
            false => maker.reserved(record),
        }
    }),
    ("any bytes of an arithmetic kind", |maker| {
        let kind = maker.random.pick(&ARITHMETIC);
        let mut record = maker.any_body(kind);
        record[1] %= maker.random.pick(&[1, 4, 8]);
        record[2] %= maker.random.pick(&[2, 3, 255]);
        (record, None)
    }),
    ("any bytes", |maker| {
        let mut record = [0; RECORD];
        maker.random.fill(&mut record);
        (record, None)
    }),
];

fn signs_over_3(random: &mut Random, kind: u32) -> [u32; 3] {
    let (any, over) = (random.small(256), 4 + random.small(252));
    [
        kind,
        random.pick(&[4, over]),
        random.pick(&[0, 1, 255, any]),
    ]
}

fn mode_over_1(random: &mut Random, kind: u32) -> [u32; 3] {
    let over = 2 + random.small(252);
    [kind, random.small(4), random.pick(&[2, over])]
}

fn mode_254(random: &mut Random, kind: u32) -> [u32; 3] {
    let signs = random.small(4);
    [kind, random.pick(&[0, signs]), 254]
}

fn mode_255(random: &mut Random, kind: u32) -> [u32; 3] {
    let (legal, any) = (1 + random.small(3), 1 + random.small(255));
    [kind, random.pick(&[legal, any]), 255]
}

fn one_bit_signs(random: &mut Random, _: u32) -> [u32; 3] {
    [random.pick(&ONE_BIT), 1 + random.small(3), random.small(2)]
}
