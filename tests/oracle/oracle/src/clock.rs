//! CPU time of this thread, which a busy machine disturbs less than wall time.

#[repr(C)]
struct Timespec {
    seconds: i64,
    nanoseconds: i64,
}

extern "C" {
    fn clock_gettime(clock: i32, time: *mut Timespec) -> i32;
}

/// CLOCK_THREAD_CPUTIME_ID of Linux.
const THREAD_CPU_TIME: i32 = 3;

/// A call that is too short for one measurement is made this often.
const OFTEN: u32 = 20;

fn now() -> f64 {
    let mut time = Timespec {
        seconds: 0,
        nanoseconds: 0,
    };
    let status = unsafe { clock_gettime(THREAD_CPU_TIME, &mut time) };
    assert_eq!(status, 0, "the thread's CPU time can be read");
    time.seconds as f64 + time.nanoseconds as f64 * 1e-9
}

/// The result of a call, and the seconds it took.
pub fn timed<T>(call: impl FnOnce() -> T) -> (T, f64) {
    let before = now();
    let result = call();
    (result, now() - before)
}

/// The mean seconds of a short call.
pub fn timed_often(mut call: impl FnMut()) -> f64 {
    let ((), seconds) = timed(|| (0..OFTEN).for_each(|_| call()));
    seconds / OFTEN as f64
}
