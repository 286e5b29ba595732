//! The clock, the median, and how long to go on.

use std::hint::black_box;
use std::time::{Duration, Instant};

#[repr(C)]
struct Timespec {
    seconds: i64,
    nanoseconds: i64,
}

extern "C" {
    fn clock_gettime(clock: i32, into: *mut Timespec) -> i32;
}

/// The processor's time that this thread has had, in microseconds (Linux).
fn worked() -> f64 {
    const CLOCK_THREAD_CPUTIME_ID: i32 = 3;
    let mut at = Timespec { seconds: 0, nanoseconds: 0 };
    // SAFETY: the pointer is to a timespec as Linux on 64 bits has it, borrowed for the call.
    unsafe { clock_gettime(CLOCK_THREAD_CPUTIME_ID, &mut at) };
    at.seconds as f64 * 1e6 + at.nanoseconds as f64 / 1e3
}

/// What a call returns, and how long it took in microseconds: by the clock, or by this thread's share of the processor where that is less, so
/// that other programs on the machine count little.
pub fn time<T>(call: impl FnOnce() -> T) -> (T, f64) {
    let had = worked();
    let start = Instant::now();
    let result = black_box(call());
    let clock = start.elapsed().as_secs_f64() * 1e6;
    (result, clock.min(worked() - had))
}

pub fn median(times: &mut [f64]) -> f64 {
    times.sort_by(f64::total_cmp);
    times[times.len() / 2]
}

/// At least 5 turns, at most 2,001, and between them until the time is spent.
pub struct Budget {
    start: Instant,
    spend: Duration,
}

impl Budget {
    pub fn new() -> Budget {
        let milliseconds = std::env::var("BENCH_MS").ok().and_then(|text| text.parse().ok()).unwrap_or(150);
        Budget { start: Instant::now(), spend: Duration::from_millis(milliseconds) }
    }

    pub fn left(&self, turns: usize) -> bool {
        turns < 5 || turns < 2001 && self.start.elapsed() < self.spend
    }
}
