//! Lengths that are right in their low 32 bits only. Nothing but the answers is compared: a buffer
//! of such a length is never touched, so it takes addresses but hardly any memory. Where the
//! machine has no addresses for one, its cases are left out and the line counts fewer.

use super::Bench;
use crate::random::Word;
use crate::report::{shown, Difference, Tally};
use crate::run::WORDS;
use crate::wazimroot::Calls;

const PAST: usize = 1 << 32;

/// A buffer's name, its right length, and a call in which it alone has another.
type Long<T> = (&'static str, usize, fn(&dyn Calls, &mut [T]) -> u64);

/// A newly opened run of kind 3.
fn run() -> [u32; WORDS] {
    let mut run = [0; WORDS];
    run[0] = 3;
    run
}

const LONG_WORDS: [Long<u32>; 14] = [
    ("wz_unpack words", 128, |calls, long| {
        calls.unpack(3, 0, long, &mut [0; 512])
    }),
    ("wz_pack words", 128, |calls, long| {
        calls.pack(3, 0, &[0; 512], long)
    }),
    ("wz_step A", 128, |calls, long| {
        calls.step([3, 0, 0], long, &[0; 64], &[0; 128], &mut [0; 128])
    }),
    ("wz_step B", 64, |calls, long| {
        calls.step([3, 0, 0], &[0; 128], long, &[0; 128], &mut [0; 128])
    }),
    ("wz_step C", 128, |calls, long| {
        calls.step([3, 0, 0], &[0; 128], &[0; 64], long, &mut [0; 128])
    }),
    ("wz_step D", 128, |calls, long| {
        calls.step([3, 0, 0], &[0; 128], &[0; 64], &[0; 128], long)
    }),
    ("wz_plain_step D", 128, |calls, long| {
        calls.plain_step(3, &[0; 128], &[0; 64], &[0; 128], long)
    }),
    ("wz_open C", 128, |calls, long| {
        calls.open([3, 0, 0], long, &mut run())
    }),
    ("wz_feed A", 128, |calls, long| {
        calls.feed(&mut run(), long, &[0; 64])
    }),
    ("wz_feed B", 64, |calls, long| {
        calls.feed(&mut run(), &[0; 128], long)
    }),
    ("wz_read D", 128, |calls, long| calls.read(&run(), long)),
    ("wz_marks marks", 4, |calls, long| calls.marks(&run(), long)),
    ("wz_scale metadata", 32, |calls, long| {
        calls.scale([1, 0, 0, 0], long, &mut [0; 16])
    }),
    ("wz_template_read words", 64, |calls, long| {
        calls.template_read(&[0; 256], long)
    }),
];

const LONG_RECORDS: [Long<u8>; 2] = [
    ("wz_template_read record", 256, |calls, long| {
        calls.template_read(long, &mut [0; 64])
    }),
    ("wz_template_write record", 256, |calls, long| {
        calls.template_write(&[0; 64], long)
    }),
];

/// Zeros, where the machine has addresses for so many.
fn zeros<T: Word>(length: usize) -> Option<Vec<T>> {
    Vec::<T>::new().try_reserve_exact(length).ok()?;
    Some(vec![T::default(); length])
}

fn each<T: Word>(bench: &Bench, calls: &[Long<T>], tally: &mut Tally) -> Result<(), Difference> {
    let longest = calls.iter().map(|call| PAST + call.1).max();
    let mut long = match longest.and_then(zeros) {
        Some(long) => long,
        None => return Ok(()),
    };
    for &(name, right, call) in calls {
        let long: &mut [T] = &mut long[..PAST + right];
        let (library, rules) = (call(bench.library, long), call(bench.rules, long));
        if library != rules {
            let (library, rules) = (shown(library), shown(rules));
            let text = format!("{name} of 2^32 + {right}: library {library}, rules {rules}");
            return Err(Difference::new(text));
        }
        tally.count(rules);
    }
    Ok(())
}

pub fn long_buffers(bench: &mut Bench) -> Result<Tally, Difference> {
    let mut tally = Tally::new("long buffers");
    each(bench, &LONG_WORDS, &mut tally)?;
    each(bench, &LONG_RECORDS, &mut tally)?;
    Ok(tally)
}
