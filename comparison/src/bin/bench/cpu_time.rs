//! CPU times: other programs on the machine disturb them less than the time of day.

use std::time::Duration;

#[repr(C)]
#[derive(Default)]
struct Pair {
    seconds: i64,
    rest: i64,
}

/// C's `struct rusage`: user and system time, and 14 numbers that are not read.
#[repr(C)]
#[derive(Default)]
struct Usage {
    user: Pair,
    system: Pair,
    others: [i64; 14],
}

extern "C" {
    fn clock_gettime(clock: i32, time: *mut Pair) -> i32;
    fn getrusage(who: i32, usage: *mut Usage) -> i32;
}

const CLOCK_THREAD_CPUTIME_ID: i32 = 3;
const RUSAGE_CHILDREN: i32 = -1;

/// The CPU time of this thread so far.
pub fn own() -> Duration {
    let mut time = Pair::default();
    // SAFETY: on Linux `struct timespec` is two 64-bit numbers, and the call writes no more.
    let status = unsafe { clock_gettime(CLOCK_THREAD_CPUTIME_ID, &mut time) };
    assert_eq!(status, 0, "clock_gettime");
    Duration::new(time.seconds as u64, time.rest as u32)
}

/// The CPU time of all programs that were started here and have ended.
pub fn of_children() -> Duration {
    let mut usage = Usage::default();
    // SAFETY: on Linux `struct rusage` is 18 64-bit numbers, and the call writes no more.
    let status = unsafe { getrusage(RUSAGE_CHILDREN, &mut usage) };
    assert_eq!(status, 0, "getrusage");
    let micros = |pair: &Pair| Duration::from_micros((pair.seconds * 1_000_000 + pair.rest) as u64);
    micros(&usage.user) + micros(&usage.system)
}
