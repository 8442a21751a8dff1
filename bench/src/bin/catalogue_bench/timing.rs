//! Processor time of this process, in seconds.

/// Times each contender is run; the fastest counts.
pub const PASSES: usize = 5;

#[repr(C)]
struct Timespec {
    seconds: i64,
    nanoseconds: i64,
}

mod linked {
    extern "C" {
        pub fn clock_gettime(clock: i32, time: *mut super::Timespec) -> i32;
    }
}

fn now() -> f64 {
    const CLOCK_PROCESS_CPUTIME_ID: i32 = 2;
    let mut time = Timespec { seconds: 0, nanoseconds: 0 };
    // SAFETY: the place is valid, and has the layout of a timespec on 64-bit Linux.
    let status = unsafe { linked::clock_gettime(CLOCK_PROCESS_CPUTIME_ID, &mut time) };
    assert_eq!(status, 0, "the process has a clock");
    time.seconds as f64 + time.nanoseconds as f64 * 1e-9
}

/// The time of one run.
pub fn time<T>(run: impl FnOnce() -> T) -> (T, f64) {
    let start = now();
    let found = std::hint::black_box(run());
    (found, now() - start)
}

/// The fastest of five runs.
pub fn fastest(mut run: impl FnMut()) -> f64 {
    (0..PASSES).map(|_| time(&mut run).1).fold(f64::INFINITY, f64::min)
}
