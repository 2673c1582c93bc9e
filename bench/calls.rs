//! The library, plain C and plain Rust, each behind one table of calls.

use crate::plain;
use crate::wazimroot::{Table, LIBRARY};
use std::ptr::read_volatile;

#[rustfmt::skip]
extern "C" {
    fn plain_c_unpack(
        kind: u32, role: u32, words: *const u32, n: usize, matrix: *mut u64, m: usize,
    ) -> u64;
    fn plain_c_pack(
        kind: u32, role: u32, matrix: *const u64, m: usize, words: *mut u32, n: usize,
    ) -> u64;
    fn plain_c_step(
        kind: u32, signs: u32, mode: u32, a: *const u32, na: usize, b: *const u32, nb: usize,
        c: *const u32, nc: usize, d: *mut u32, nd: usize,
    ) -> u64;
    fn plain_c_open(
        kind: u32, signs: u32, mode: u32, c: *const u32, nc: usize, run: *mut u32,
    ) -> u64;
    fn plain_c_feed(run: *mut u32, a: *const u32, na: usize, b: *const u32, nb: usize) -> u64;
    fn plain_c_read(run: *const u32, d: *mut u32, nd: usize) -> u64;
    fn plain_c_marks(run: *const u32, marks: *mut u32, n: usize) -> u64;
    fn plain_c_scale(
        size: u32, side: u32, byte_id: u32, thread_id: u32, metadata: *const u32, nm: usize,
        out: *mut i32, no: usize,
    ) -> u64;
}

pub const NAMES: [&str; 3] = ["the library", "plain C", "plain Rust"];

/// The calls that are not measured are the library's in all three.
static TABLES: [Table; 3] = [
    LIBRARY,
    Table {
        unpack: plain_c_unpack,
        pack: plain_c_pack,
        step: plain_c_step,
        open: plain_c_open,
        feed: plain_c_feed,
        read: plain_c_read,
        marks: plain_c_marks,
        scale: plain_c_scale,
        ..LIBRARY
    },
    Table {
        unpack: plain::plain_rust_unpack,
        pack: plain::plain_rust_pack,
        step: plain::plain_rust_step,
        open: plain::plain_rust_open,
        feed: plain::plain_rust_feed,
        read: plain::plain_rust_read,
        marks: plain::plain_rust_marks,
        scale: plain::plain_rust_scale,
        ..LIBRARY
    },
];

/// The tables by a read that the compiler cannot see through: it inlines none of the three.
pub fn all() -> [Table; 3] {
    // SAFETY: a whole, aligned static.
    unsafe { read_volatile(&TABLES) }
}
