//! The program `plans` on every size. Outside the gate: cargo test --release --features long --test long_plans

use plan_tests::program::compare_sizes;

#[test]
fn every_size_in_32_runs() {
    assert_eq!(compare_sizes(5, 16).1, 0);
}

#[test]
fn every_size_in_64_runs() {
    assert_eq!(compare_sizes(6, 16).1, 4);
}

#[test]
fn every_size_in_128_runs() {
    assert_eq!(compare_sizes(7, 16).1, 8);
}
