//! How often each exported function was called, and its slowest call, where a thread asks for it.

use std::cell::{Cell, RefCell};
use std::collections::BTreeMap;
use std::fmt::Debug;
use std::time::Duration;

/// The clock of the processor time that this thread has used: it stands still while others run.
const THREAD_TIME: i32 = 3;

#[repr(C)]
#[derive(Default)]
struct Time {
    seconds: i64,
    nanoseconds: i64,
}

extern "C" {
    fn clock_gettime(clock: i32, time: *mut Time) -> i32;
}

fn now() -> Duration {
    let mut time = Time::default();
    // SAFETY: `time` has the layout of C's struct timespec.
    let failed = unsafe { clock_gettime(THREAD_TIME, &mut time) };
    assert_eq!(failed, 0, "no clock");
    Duration::new(time.seconds as u64, time.nanoseconds as u32)
}

/// The calls of one function.
#[derive(Clone, Debug, Default)]
pub struct Record {
    pub calls: u64,
    /// the most processor time that one took
    pub slowest: Duration,
    /// the sizes and lists of the slowest call
    pub input: String,
}

thread_local! {
    static KEEPING: Cell<bool> = const { Cell::new(false) };
    static RECORDS: RefCell<BTreeMap<&'static str, Record>> = const { RefCell::new(BTreeMap::new()) };
}

/// From now on this thread keeps the records of its calls.
pub fn keep() {
    KEEPING.set(true);
}

/// How often a call that seems the slowest is made again: the least of its times counts, so that what disturbs a call does not.
const AGAIN: usize = 3;

/// Makes a call. If records are kept, its time goes under the function's name, with its input if no call before it was slower.
pub fn timed<R>(name: &'static str, input: impl Debug, mut call: impl FnMut() -> R) -> R {
    if !KEEPING.get() {
        return call();
    }
    let mut took = Duration::MAX;
    let slowest = slowest(name);
    for _ in 0..AGAIN {
        let start = now();
        let answer = call();
        took = took.min(now() - start);
        if took <= slowest {
            add(name, took, input);
            return answer;
        }
    }
    add(name, took, input);
    call()
}

/// The slowest call of the function so far.
pub fn slowest(name: &str) -> Duration {
    RECORDS.with_borrow(|records| records.get(name).map_or(Duration::ZERO, |record| record.slowest))
}

fn add(name: &'static str, took: Duration, input: impl Debug) {
    RECORDS.with_borrow_mut(|records| {
        let record = records.entry(name).or_default();
        record.calls += 1;
        if took > record.slowest {
            record.slowest = took;
            record.input = format!("{input:?}");
        }
    });
}

/// How many calls this thread has records of.
pub fn made() -> u64 {
    RECORDS.with_borrow(|records| records.values().map(|record| record.calls).sum())
}

/// The records of this thread, by function.
pub fn records() -> BTreeMap<&'static str, Record> {
    RECORDS.with_borrow(BTreeMap::clone)
}
