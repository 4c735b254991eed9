//! Time that this thread has spent on a processor: what else the machine does is not in it.

use std::time::Duration;

#[repr(C)]
struct Timespec {
    seconds: i64,
    nanoseconds: i64,
}

extern "C" {
    fn clock_gettime(clock: i32, time: *mut Timespec) -> i32;
}

/// Linux's number of the clock.
const THREAD_CPU_TIME: i32 = 3;

pub fn now() -> Duration {
    let mut time = Timespec { seconds: 0, nanoseconds: 0 };
    assert_eq!(unsafe { clock_gettime(THREAD_CPU_TIME, &mut time) }, 0, "the clock can be read");
    Duration::new(time.seconds as u64, time.nanoseconds as u32)
}
