//! The processor time of this thread, and of children. Time on the wall also has what other work on the machine took, which made ratios of long calls
//! vary by a factor of two. Reading it costs a fraction of a microsecond, so short calls are measured many at a time.

use std::hint::black_box;

/// C's `struct timespec` on 64-bit Linux.
#[repr(C)]
struct Timespec {
    seconds: i64,
    nanoseconds: i64,
}

/// C's `struct rusage` on 64-bit Linux: times as seconds and microseconds.
#[repr(C)]
#[derive(Default)]
struct Rusage {
    user: [i64; 2],
    system: [i64; 2],
    rest: [i64; 14],
}

extern "C" {
    fn clock_gettime(clock: i32, time: *mut Timespec) -> i32;
    fn getrusage(whose: i32, usage: *mut Rusage) -> i32;
}

/// Linux's number of the clock.
const CLOCK_THREAD_CPUTIME_ID: i32 = 3;

/// Linux's number of the children that have ended.
const RUSAGE_CHILDREN: i32 = -1;

/// Seconds of processor time that this thread has had.
fn seconds() -> f64 {
    let mut time = Timespec {
        seconds: 0,
        nanoseconds: 0,
    };
    // It writes the one struct it is given.
    let failed = unsafe { clock_gettime(CLOCK_THREAD_CPUTIME_ID, &mut time) };
    assert_eq!(failed, 0, "no clock of the thread's processor time");
    time.seconds as f64 + 1e-9 * time.nanoseconds as f64
}

/// Short calls are repeated until they take so long together, hundreds of times what the clock takes.
const STRETCH: f64 = 200e-6;

/// How many calls make a stretch that is long enough to be measured.
pub fn calls_in_a_stretch<R>(mut call: impl FnMut() -> R) -> usize {
    let mut calls = 1;
    while calls as f64 * seconds_of_a_call(calls, &mut call) < STRETCH {
        calls *= 2;
    }
    calls
}

/// Seconds of processor time of one call, from so many.
pub fn seconds_of_a_call<R>(calls: usize, mut call: impl FnMut() -> R) -> f64 {
    let start = seconds();
    for _ in 0..calls {
        black_box(call());
    }
    (seconds() - start) / calls as f64
}

/// Seconds of processor time that the children of this process, and theirs, had until they ended.
pub fn seconds_of_children() -> f64 {
    let mut usage = Rusage::default();
    // It writes the one struct it is given.
    let failed = unsafe { getrusage(RUSAGE_CHILDREN, &mut usage) };
    assert_eq!(failed, 0, "no usage of the children");
    let seconds = |[seconds, micros]: [i64; 2]| seconds as f64 + 1e-6 * micros as f64;
    seconds(usage.user) + seconds(usage.system)
}
