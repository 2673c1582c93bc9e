//! The processor time of this thread: what else the machine does meanwhile is not in it.

use std::time::Duration;

/// `struct timespec` and CLOCK_THREAD_CPUTIME_ID of 64-bit Linux.
#[repr(C)]
struct Timespec {
    seconds: i64,
    nanoseconds: i64,
}
const THREAD_CPU_TIME: i32 = 3;

extern "C" {
    fn clock_gettime(clock: i32, time: *mut Timespec) -> i32;
}

pub fn processor_time() -> Duration {
    let mut time = Timespec {
        seconds: 0,
        nanoseconds: 0,
    };
    // SAFETY: the time is lent to this call alone.
    let failed = unsafe { clock_gettime(THREAD_CPU_TIME, &mut time) };
    assert_eq!(failed, 0, "no clock for a thread's processor time");
    Duration::new(time.seconds as u64, time.nanoseconds as u32)
}
