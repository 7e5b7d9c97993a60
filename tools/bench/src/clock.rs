//! Processor time of this thread, so that other work on the machine is not counted.

use std::time::Duration;

#[repr(C)]
struct Timespec {
    seconds: i64,
    nanoseconds: i64,
}

extern "C" {
    fn clock_gettime(clock: i32, time: *mut Timespec) -> i32;
}

/// CLOCK_THREAD_CPUTIME_ID of Linux.
const OF_THREAD: i32 = 3;

pub fn used() -> Duration {
    let mut time = Timespec { seconds: 0, nanoseconds: 0 };
    let failed = unsafe { clock_gettime(OF_THREAD, &mut time) };
    assert!(failed == 0, "no clock of this thread's time");
    Duration::new(time.seconds as u64, time.nanoseconds as u32)
}
