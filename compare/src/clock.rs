//! The processor's time of this thread: what other programs on the machine take is not
//! counted, so that a busy machine measures nearly as an idle one.

use std::time::Duration;

/// `struct timespec` of Linux on 64-bit machines.
#[repr(C)]
struct Timespec {
    seconds: i64,
    nanoseconds: i64,
}

/// CLOCK_THREAD_CPUTIME_ID of Linux.
const THREAD_TIME: i32 = 3;

extern "C" {
    fn clock_gettime(clock: i32, time: &mut Timespec) -> i32;
}

/// How long this thread has run in all.
pub fn thread_time() -> Duration {
    let mut time = Timespec { seconds: 0, nanoseconds: 0 };
    // SAFETY: it writes to the one struct that it is lent.
    let answer = unsafe { clock_gettime(THREAD_TIME, &mut time) };
    assert_eq!(answer, 0, "Linux has this clock");
    Duration::new(time.seconds as u64, time.nanoseconds as u32)
}
