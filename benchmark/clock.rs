//! The processor time of this thread.

#[repr(C)]
struct Timespec {
    seconds: i64,
    nanoseconds: i64,
}

extern "C" {
    fn clock_gettime(clock: i32, time: *mut Timespec) -> i32;
}

/// Linux's CLOCK_THREAD_CPUTIME_ID.
const THREAD_TIME: i32 = 3;

/// A time to measure from.
pub struct Clock {
    start: f64,
}

impl Clock {
    pub fn start() -> Clock {
        Clock { start: now() }
    }

    /// What has passed since the start.
    pub fn nanoseconds(&self) -> f64 {
        now() - self.start
    }
}

fn now() -> f64 {
    let mut time = Timespec {
        seconds: 0,
        nanoseconds: 0,
    };
    // SAFETY: the time is lent to be written.
    let status = unsafe { clock_gettime(THREAD_TIME, &mut time) };
    assert_eq!(status, 0, "the clock of the thread is not to be had");
    time.seconds as f64 * 1e9 + time.nanoseconds as f64
}
