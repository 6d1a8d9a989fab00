//! The time that this thread was run, which other programs on the machine do not add to.

use std::time::Duration;

extern "C" {
    fn clock_gettime(clock: i32, time: &mut [i64; 2]) -> i32;
}

/// `CLOCK_THREAD_CPUTIME_ID` of Linux.
const THREAD: i32 = 3;

/// A started measurement.
pub struct Clock(Duration);

impl Clock {
    pub fn start() -> Self {
        Clock(now())
    }

    pub fn elapsed(&self) -> Duration {
        now() - self.0
    }
}

fn now() -> Duration {
    let mut time = [0; 2];
    // SAFETY: on 64-bit Linux the C structure is two 64-bit numbers, seconds and nanoseconds.
    let answer = unsafe { clock_gettime(THREAD, &mut time) };
    assert_eq!(answer, 0, "this system has no clock for a thread");
    Duration::new(time[0] as u64, time[1] as u32)
}
