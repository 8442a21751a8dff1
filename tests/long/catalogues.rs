//! The largest catalogues. Outside the gate: cargo test --release --features long --test long_catalogues

use plan_tests::catalogues::catalogue;
use plan_tests::forms::compare_smallest;
use plan_tests::known::in_other_basics;
use plan_tests::random::Random;

/// Fails unless the catalogue has this many entries, each confirmed by the checking program. Every entry of a sample, in other names and
/// basics, leads back to itself.
fn confirm(n: usize, m: usize, r: usize, count: usize) {
    let entries = catalogue(n, m, r, count);
    assert_eq!(entries.len(), count, "{n} {} {r}", n - m);
    let mut random = Random::new(0x77 + n as u64);
    for entry in entries.iter().step_by(1 + count / 200) {
        let mut other = in_other_basics(&mut random, m, entry);
        random.shuffle(&mut other);
        compare_smallest(n, n - m, &other, entry, (n + 2, n));
    }
}

#[test]
fn counts_in_64_runs_from_13_factors() {
    for (n, count) in [(13, 1_794), (14, 4_579), (15, 11_635), (16, 29_091)] {
        confirm(n, 6, 3, count);
    }
}

#[test]
fn counts_in_128_runs_from_13_factors() {
    for (n, count) in [(13, 623), (14, 1_535), (15, 3_522), (16, 7_500)] {
        confirm(n, 7, 4, count);
    }
}

/// No document has these counts: that no plan is missing is seen by counting sets of columns.
#[test]
fn no_plan_of_15_or_16_factors_in_128_runs_is_missing() {
    confirm(15, 7, 3, 137_493);
    confirm(16, 7, 3, 745_413);
}
