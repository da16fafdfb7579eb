//! Times, and how they are told.

use std::time::Duration;

/// A median is of so many runs.
pub const RUNS: usize = 15;

pub fn told(time: Duration) -> String {
    format!("{:.1} µs", time.as_secs_f64() * 1e6)
}

pub fn ratio(ours: Duration, theirs: Duration) -> String {
    format!("{:.2}", ours.as_secs_f64() / theirs.as_secs_f64())
}

pub fn time(f: impl FnOnce()) -> Duration {
    let start = processor_time();
    f();
    processor_time().saturating_sub(start)
}

/// The C library's clock of the time that all threads of this process have
/// had a processor: what else the machine does is not in it.
fn processor_time() -> Duration {
    #[repr(C)]
    #[derive(Default)]
    struct Time {
        seconds: i64,
        nanoseconds: i64,
    }
    extern "C" {
        fn clock_gettime(clock: i32, time: *mut Time) -> i32;
    }
    const OF_PROCESS: i32 = 2;
    let mut time = Time::default();
    // The time is this function's own.
    let status = unsafe { clock_gettime(OF_PROCESS, &mut time) };
    assert_eq!(status, 0, "the process has a clock");
    Duration::new(time.seconds as u64, time.nanoseconds as u32)
}

pub fn median(mut times: Vec<Duration>) -> Duration {
    times.sort_unstable();
    times[times.len() / 2]
}
