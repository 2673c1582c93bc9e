//! "Scale bytes".

use crate::{bits, refusals, rules};

/// Whether a lane with this place in its quad gives bytes.
fn chosen(side: u32, thread_id: u32, t: u32) -> bool {
    match (side, thread_id) {
        (0, 0) => t == 0 || t == 1,
        (0, _) => t == 2 || t == 3,
        _ => t == thread_id,
    }
}

/// The bytes of the chosen lanes, in the output's order, for legal selectors.
fn chosen_bytes([size, side, byte_id, thread_id]: [u32; 4], metadata: &[u32]) -> Vec<u64> {
    let mut bytes = Vec::new();
    for lane in (0..rules::LANES).filter(|lane| chosen(side, thread_id, lane % 4)) {
        let lane_words = &metadata[lane as usize..][..1];
        for byte in byte_id..byte_id + size {
            bytes.push(bits::element(lane_words, byte as usize, 8));
        }
    }
    bytes
}

/// The selector is size, side, byte-id, thread-id.
pub fn scale(selector: [u32; 4], metadata: &[u32], out: &mut [i32]) -> u64 {
    let illegal = refusals::scale(selector, metadata.len(), out.len());
    if illegal != 0 {
        return illegal;
    }
    let bytes = chosen_bytes(selector, metadata);
    let answer = refusals::scale_bytes(&bytes);
    if answer == 0 {
        for (number, byte) in out.iter_mut().zip(bytes) {
            *number = byte as i32 - 127;
        }
    }
    answer
}
