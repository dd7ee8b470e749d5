//! Processor time, so that other work on the machine does not count.

#[repr(C)]
struct Time {
    seconds: i64,
    rest: i64,
}

/// What getrusage tells: user time, system time, and fourteen counts.
#[repr(C)]
struct Usage {
    user: Time,
    system: Time,
    counts: [i64; 14],
}

extern "C" {
    fn clock_gettime(clock: i32, time: *mut Time) -> i32;
    fn getrusage(who: i32, usage: *mut Usage) -> i32;
}

/// The processor time of this thread, in seconds.
pub fn thread() -> f64 {
    const CLOCK_THREAD_CPUTIME_ID: i32 = 3;
    let mut time = Time { seconds: 0, rest: 0 };
    // SAFETY: the structure has the layout of Linux' timespec on 64-bit machines.
    assert_eq!(unsafe { clock_gettime(CLOCK_THREAD_CPUTIME_ID, &mut time) }, 0);
    time.seconds as f64 + time.rest as f64 * 1e-9
}

/// The processor time of all child processes that have ended, in seconds.
pub fn children() -> f64 {
    const RUSAGE_CHILDREN: i32 = -1;
    let zero = || Time { seconds: 0, rest: 0 };
    let mut usage = Usage { user: zero(), system: zero(), counts: [0; 14] };
    // SAFETY: the structure has the layout of Linux' rusage on 64-bit machines.
    assert_eq!(unsafe { getrusage(RUSAGE_CHILDREN, &mut usage) }, 0);
    let seconds = |t: &Time| t.seconds as f64 + t.rest as f64 * 1e-6;
    seconds(&usage.user) + seconds(&usage.system)
}
