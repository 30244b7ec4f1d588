//! Time, and the best of many.

use std::time::Duration;

#[repr(C)]
struct Timespec {
    seconds: i64,
    nanoseconds: i64,
}

extern "C" {
    fn clock_gettime(clock: i32, time: *mut Timespec) -> i32;
}

/// Linux's number of the clock.
const THREAD_CPUTIME: i32 = 3;

/// Processor time of this thread: the machine may be shared, and waiting for a turn isn't measured.
fn processor() -> Duration {
    let mut time = Timespec {
        seconds: 0,
        nanoseconds: 0,
    };
    // SAFETY: the call writes one timespec, to a local of that layout.
    let answer = unsafe { clock_gettime(THREAD_CPUTIME, &mut time) };
    assert_eq!(answer, 0, "the clock can be read");
    Duration::new(time.seconds as u64, time.nanoseconds as u32)
}

/// The shortest of all rounds: what the machine does when nobody disturbs it.
#[derive(Clone, Copy)]
pub struct Best(Duration);

impl Best {
    pub fn new() -> Self {
        Best(Duration::MAX)
    }

    pub fn see(&mut self, time: Duration) {
        self.0 = self.0.min(time);
    }

    /// Sees the processor time of some work.
    pub fn time<T>(&mut self, work: impl FnOnce() -> T) -> T {
        let start = processor();
        let answer = work();
        self.see(processor() - start);
        answer
    }

    pub fn seconds(&self) -> f64 {
        self.0.as_secs_f64()
    }
}
