//! Processor time of this thread and of ended programs, as libc of 64-bit Linux tells it.

/// A time in seconds and nanoseconds.
#[repr(C)]
struct TimeSpec {
    seconds: i64,
    nanoseconds: i64,
}

/// A time in seconds and microseconds.
#[repr(C)]
struct TimeValue {
    seconds: i64,
    microseconds: i64,
}

/// The head of `struct rusage`; fourteen more numbers follow, which are not read.
#[repr(C)]
struct Usage {
    user: TimeValue,
    system: TimeValue,
    rest: [i64; 14],
}

extern "C" {
    fn clock_gettime(clock: i32, time: *mut TimeSpec) -> i32;
    fn getrusage(who: i32, usage: *mut Usage) -> i32;
}

/// CLOCK_THREAD_CPUTIME_ID and RUSAGE_CHILDREN of Linux.
const THREAD_CPU_TIME: i32 = 3;
const CHILDREN: i32 = -1;

/// Processor seconds of this thread.
pub fn thread_seconds() -> f64 {
    let mut time = TimeSpec { seconds: 0, nanoseconds: 0 };
    // The call writes to the struct alone, which has the layout of 64-bit Linux.
    unsafe { clock_gettime(THREAD_CPU_TIME, &mut time) };
    time.seconds as f64 + time.nanoseconds as f64 * 1e-9
}

fn seconds(time: &TimeValue) -> f64 {
    time.seconds as f64 + time.microseconds as f64 * 1e-6
}

/// User and system seconds of all programs that were started here and have ended.
pub fn children_seconds() -> [f64; 2] {
    let zero = || TimeValue { seconds: 0, microseconds: 0 };
    let mut usage = Usage { user: zero(), system: zero(), rest: [0; 14] };
    // The call writes to the struct alone, which has the layout of 64-bit Linux.
    unsafe { getrusage(CHILDREN, &mut usage) };
    [seconds(&usage.user), seconds(&usage.system)]
}
