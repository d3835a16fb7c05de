//! The processor time of this thread: what other programs do meanwhile does not count.

#[repr(C)]
struct Timespec {
    seconds: i64,
    nanoseconds: i64,
}

extern "C" {
    fn clock_gettime(clock: i32, time: *mut Timespec) -> i32;
}

const THREAD_CPUTIME: i32 = 3;

fn now() -> f64 {
    let mut time = Timespec { seconds: 0, nanoseconds: 0 };
    // The struct is C's timespec, and the call writes nothing else.
    let done = unsafe { clock_gettime(THREAD_CPUTIME, &mut time) };
    assert_eq!(done, 0);
    time.seconds as f64 * 1e9 + time.nanoseconds as f64
}

/// How many nanoseconds the work takes, and what it gives.
pub fn timed<T>(work: impl FnOnce() -> T) -> (f64, T) {
    let start = now();
    let given = work();
    (now() - start, given)
}

/// How many nanoseconds pass between two looks at the clock, at least.
pub fn timed_nothing() -> f64 {
    (0..1000).map(|_| timed(|| ()).0).fold(f64::INFINITY, f64::min)
}
