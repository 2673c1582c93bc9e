//! The calls of wazimroot.h on slices and arrays, for programs in Rust that link the same library.

#![allow(dead_code)] // each program uses a part

/// The number and the detail of an answer; both are 0 where the call was accepted.
pub fn number(answer: u64) -> u32 {
    answer as u32
}

pub fn detail(answer: u64) -> u32 {
    (answer >> 32) as u32
}

pub const UNKNOWN_KIND: u32 = 1;
pub const UNKNOWN_ROLE: u32 = 2;
pub const NOT_ARITHMETIC: u32 = 3;
pub const BAD_SELECTORS: u32 = 4;
pub const WRONG_LENGTH: u32 = 5;
pub const OUTSIDE: u32 = 6;
pub const TOO_WIDE: u32 = 7;
pub const BAD_SCALE: u32 = 8;
pub const RUN_FULL: u32 = 9;
pub const BAD_RUN: u32 = 10;
pub const UNUSED_NOT_ZERO: u32 = 11;
pub const SCALE_NAN: u32 = 12;

pub const RUN_WORDS: usize = 136;
pub const MAX_BLOCKS: u32 = 4096;
pub type Run = [u32; RUN_WORDS];

macro_rules! declare {
    ($($call:ident: $name:ident($($argument:ident: $type:ty),*);)*) => {
        extern "C" {
            $(fn $name($($argument: $type),*) -> u64;)*
        }

        /// The calls by pointers. Others may stand in for the library's: functions that ask of
        /// their caller what the header asks, and no more.
        #[derive(Clone, Copy)]
        pub struct Table {
            $(pub $call: unsafe extern "C" fn($($type),*) -> u64,)*
        }

        pub const LIBRARY: Table = Table { $($call: $name),* };
    };
}

declare! {
    place: wz_place(kind: u32, role: u32, lane: u32, element: u32, out: *mut u32);
    find: wz_find(kind: u32, role: u32, row: u32, column: u32, out: *mut u32);
    unpack: wz_unpack(
        kind: u32, role: u32, words: *const u32, n: usize, matrix: *mut u64, m: usize);
    pack: wz_pack(kind: u32, role: u32, matrix: *const u64, m: usize, words: *mut u32, n: usize);
    step: wz_step(
        kind: u32, signs: u32, mode: u32, a: *const u32, na: usize, b: *const u32, nb: usize,
        c: *const u32, nc: usize, d: *mut u32, nd: usize);
    plain_step: wz_plain_step(
        kind: u32, a: *const u32, na: usize, b: *const u32, nb: usize, c: *const u32, nc: usize,
        d: *mut u32, nd: usize);
    open: wz_open(kind: u32, signs: u32, mode: u32, c: *const u32, nc: usize, run: *mut u32);
    feed: wz_feed(run: *mut u32, a: *const u32, na: usize, b: *const u32, nb: usize);
    read: wz_read(run: *const u32, d: *mut u32, nd: usize);
    marks: wz_marks(run: *const u32, marks: *mut u32, n: usize);
    scale: wz_scale(
        size: u32, side: u32, byte_id: u32, thread_id: u32, metadata: *const u32, nm: usize,
        out: *mut i32, no: usize);
    template_read: wz_template_read(record: *const u8, nr: usize, words: *mut u32, nw: usize);
    template_write: wz_template_write(words: *const u32, nw: usize, record: *mut u8, nr: usize);
}

pub trait Calls {
    fn place(&self, kind: u32, role: u32, lane: u32, element: u32, out: &mut [u32; 4]) -> u64;
    fn find(&self, kind: u32, role: u32, row: u32, column: u32, out: &mut [u32; 2]) -> u64;
    fn unpack(&self, kind: u32, role: u32, words: &[u32], matrix: &mut [u64]) -> u64;
    fn pack(&self, kind: u32, role: u32, matrix: &[u64], words: &mut [u32]) -> u64;
    /// The selector is kind, signs, mode.
    fn step(&self, selector: [u32; 3], a: &[u32], b: &[u32], c: &[u32], d: &mut [u32]) -> u64;
    fn plain_step(&self, kind: u32, a: &[u32], b: &[u32], c: &[u32], d: &mut [u32]) -> u64;
    fn open(&self, selector: [u32; 3], c: &[u32], run: &mut Run) -> u64;
    fn feed(&self, run: &mut Run, a: &[u32], b: &[u32]) -> u64;
    fn read(&self, run: &Run, d: &mut [u32]) -> u64;
    fn marks(&self, run: &Run, marks: &mut [u32]) -> u64;
    /// The selector is size, side, byte-id, thread-id.
    fn scale(&self, selector: [u32; 4], metadata: &[u32], out: &mut [i32]) -> u64;
    fn template_read(&self, record: &[u8], words: &mut [u32]) -> u64;
    fn template_write(&self, words: &[u32], record: &mut [u8]) -> u64;
}

// SAFETY of each call: what the header asks of a caller is kept by the types. A slice leads to as
// many elements as its length says, an array to as many as its type says, neither is null, and what
// is lent for writing overlaps nothing else.
impl Calls for Table {
    fn place(&self, kind: u32, role: u32, lane: u32, element: u32, out: &mut [u32; 4]) -> u64 {
        unsafe { (self.place)(kind, role, lane, element, out.as_mut_ptr()) }
    }

    fn find(&self, kind: u32, role: u32, row: u32, column: u32, out: &mut [u32; 2]) -> u64 {
        unsafe { (self.find)(kind, role, row, column, out.as_mut_ptr()) }
    }

    fn unpack(&self, kind: u32, role: u32, words: &[u32], matrix: &mut [u64]) -> u64 {
        let (n, m) = (words.len(), matrix.len());
        unsafe { (self.unpack)(kind, role, words.as_ptr(), n, matrix.as_mut_ptr(), m) }
    }

    fn pack(&self, kind: u32, role: u32, matrix: &[u64], words: &mut [u32]) -> u64 {
        let (m, n) = (matrix.len(), words.len());
        unsafe { (self.pack)(kind, role, matrix.as_ptr(), m, words.as_mut_ptr(), n) }
    }

    fn step(&self, selector: [u32; 3], a: &[u32], b: &[u32], c: &[u32], d: &mut [u32]) -> u64 {
        let [kind, signs, mode] = selector;
        let (a, na, b, nb) = (a.as_ptr(), a.len(), b.as_ptr(), b.len());
        let (c, nc, d, nd) = (c.as_ptr(), c.len(), d.as_mut_ptr(), d.len());
        unsafe { (self.step)(kind, signs, mode, a, na, b, nb, c, nc, d, nd) }
    }

    fn plain_step(&self, kind: u32, a: &[u32], b: &[u32], c: &[u32], d: &mut [u32]) -> u64 {
        let (a, na, b, nb) = (a.as_ptr(), a.len(), b.as_ptr(), b.len());
        let (c, nc, d, nd) = (c.as_ptr(), c.len(), d.as_mut_ptr(), d.len());
        unsafe { (self.plain_step)(kind, a, na, b, nb, c, nc, d, nd) }
    }

    fn open(&self, selector: [u32; 3], c: &[u32], run: &mut Run) -> u64 {
        let [kind, signs, mode] = selector;
        unsafe { (self.open)(kind, signs, mode, c.as_ptr(), c.len(), run.as_mut_ptr()) }
    }

    fn feed(&self, run: &mut Run, a: &[u32], b: &[u32]) -> u64 {
        unsafe { (self.feed)(run.as_mut_ptr(), a.as_ptr(), a.len(), b.as_ptr(), b.len()) }
    }

    fn read(&self, run: &Run, d: &mut [u32]) -> u64 {
        unsafe { (self.read)(run.as_ptr(), d.as_mut_ptr(), d.len()) }
    }

    fn marks(&self, run: &Run, marks: &mut [u32]) -> u64 {
        unsafe { (self.marks)(run.as_ptr(), marks.as_mut_ptr(), marks.len()) }
    }

    fn scale(&self, selector: [u32; 4], metadata: &[u32], out: &mut [i32]) -> u64 {
        let [size, side, byte_id, thread_id] = selector;
        let (metadata, nm) = (metadata.as_ptr(), metadata.len());
        let (out, no) = (out.as_mut_ptr(), out.len());
        unsafe { (self.scale)(size, side, byte_id, thread_id, metadata, nm, out, no) }
    }

    fn template_read(&self, record: &[u8], words: &mut [u32]) -> u64 {
        let (nr, nw) = (record.len(), words.len());
        unsafe { (self.template_read)(record.as_ptr(), nr, words.as_mut_ptr(), nw) }
    }

    fn template_write(&self, words: &[u32], record: &mut [u8]) -> u64 {
        let (nw, nr) = (words.len(), record.len());
        unsafe { (self.template_write)(words.as_ptr(), nw, record.as_mut_ptr(), nr) }
    }
}
