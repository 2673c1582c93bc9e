//! "Template records": B of kind 3, row k column c at byte 8k + c.

use crate::layout::{Layout, Layouts};
use crate::rules::{B, LANES};
use crate::{bits, refusals};

const KIND: u32 = 3;

/// Calls `each` with a lane, an element and the element's byte in the record.
fn bytes(layout: &Layout, mut each: impl FnMut(usize, usize, usize)) {
    for lane in 0..LANES {
        for i in 0..layout.elements {
            if let Some((k, c)) = layout.place(lane, i) {
                each(lane as usize, i as usize, (8 * k + c) as usize);
            }
        }
    }
}

pub fn read(layouts: &Layouts, record: &[u8], words: &mut [u32]) -> u64 {
    let answer = refusals::template_read(record.len(), words.len());
    if answer == 0 {
        let layout = layouts.of(KIND, B);
        bytes(layout, |lane, i, byte| {
            let lane_words = &mut words[lane * layout.words..][..layout.words];
            bits::put(lane_words, i, 8, u64::from(record[byte]));
        });
    }
    answer
}

pub fn write(layouts: &Layouts, words: &[u32], record: &mut [u8]) -> u64 {
    let answer = refusals::template_write(words.len(), record.len());
    if answer == 0 {
        let layout = layouts.of(KIND, B);
        bytes(layout, |lane, i, byte| {
            let lane_words = &words[lane * layout.words..][..layout.words];
            record[byte] = bits::element(lane_words, i, 8) as u8;
        });
    }
    answer
}
