//! The processor time of this thread. Other work on the machine may slow the thread down, but its time is not counted.

use std::time::Duration;

#[repr(C)]
struct Timespec {
    seconds: i64,
    nanoseconds: i64,
}

/// Linux's number for a thread's own clock.
const THREAD: i32 = 3;

unsafe extern "C" {
    fn clock_gettime(clock: i32, time: *mut Timespec) -> i32;
}

pub fn now() -> Duration {
    let mut time = Timespec {
        seconds: 0,
        nanoseconds: 0,
    };
    // SAFETY: the call writes to `time` only
    let status = unsafe { clock_gettime(THREAD, &mut time) };
    assert_eq!(status, 0, "this machine has no clock for a thread");
    Duration::new(time.seconds as u64, time.nanoseconds as u32)
}
