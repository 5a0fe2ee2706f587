//! The processor time of this thread: what else runs on the machine is left out.

#[repr(C)]
struct Time {
    seconds: i64,
    nanoseconds: i64,
}

extern "C" {
    fn clock_gettime(clock: i32, time: *mut Time) -> i32;
}

/// Linux, 64 bits: CLOCK_THREAD_CPUTIME_ID.
const THREAD: i32 = 3;

/// What the call gives, and how many seconds it took.
pub fn timed<T>(call: impl FnOnce() -> T) -> (T, f64) {
    let before = now();
    let given = call();
    (given, now() - before)
}

fn now() -> f64 {
    let mut time = Time {
        seconds: 0,
        nanoseconds: 0,
    };
    // SAFETY: the call only writes the time it is lent.
    let failed = unsafe { clock_gettime(THREAD, &mut time) };
    assert_eq!(failed, 0, "no clock for this thread");
    time.seconds as f64 + time.nanoseconds as f64 * 1e-9
}
