//! A million loads, in some 20 seconds, and the steps of every seed, in some minutes. Outside the gate:
//! cargo test --release --features long --test long_loads

use plan_tests::check::load::{load, Draws};
use plan_tests::check::plan::plan_bytes;
use plan_tests::loads::{confirmed_form, every_size, loaded};

/// How many loads of each of the 53 sizes, in a row.
const LOADS: usize = 19_000;

#[test]
fn a_million_loads_are_the_same_as_the_plans_of_their_smallest_forms() {
    assert!(LOADS * every_size().len() >= 1_000_000);
    for (n, g) in every_size() {
        let (mut state, mut draws) = (n as u32, Draws::new(n as u32));
        for _ in 0..LOADS {
            let (plan, next) = loaded(n, g, state);
            let drawn = plan_bytes(&load(n, g, &mut draws).columns, 0);
            assert!(plan.iter().map(|&byte| u32::from(byte)).eq(drawn), "{plan:?} at {state}, {n} {g}");
            confirmed_form(n, g, &plan);
            state = next;
        }
        assert_eq!(state, draws.state(), "{n} {g}");
    }
}

/// How many used columns the load of a seed passes with 15 factors in 16 runs. Bit c - 1 says that column c is used.
fn used_columns_passed(seed: u32) -> u32 {
    let (mut draws, mut used, mut passed) = (Draws::new(seed), 0b1000_1011_u32, 0);
    for _ in 4..15 {
        let from = (draws.draw() % 15) as u32;
        let upward = (used >> from | used << (15 - from)) & 0x7fff;
        let steps = upward.trailing_ones();
        used |= 1 << ((from + steps) % 15);
        passed += steps;
    }
    passed
}

#[test]
fn with_15_factors_in_16_runs_one_seed_passes_93_used_columns_and_every_other_passes_fewer() {
    let most = (0..=u32::MAX).filter(|&seed| used_columns_passed(seed) >= 93).collect::<Vec<u32>>();
    assert_eq!(most, [628_988_049]);
    assert_eq!(used_columns_passed(628_988_049), 93);
}
