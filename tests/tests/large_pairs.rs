//! Random plans of 8 to 16 factors, compared in pairs: renamed and switched, changed in one column, or drawn apart.

use plan_tests::check::plan::Form;
use plan_tests::check::renamings::is_witness;
use plan_tests::check::runs::runs_of_columns;
use plan_tests::compare_pairs::{compare_known, compare_pair, Counts, Expected};
use plan_tests::known::{disguised, Known};
use plan_tests::pairs::Pair;
use plan_tests::random::Random;
use plan_tests::samples::columns;

/// The sizes of 8 to 16 factors that have plans without words of fewer than three letters.
fn sizes() -> impl Iterator<Item = (usize, usize)> {
    (8..=16usize).flat_map(|n| (4..=7).map(move |m| (n, m))).filter(|&(n, m)| n < 1 << m)
}

/// Plans of one size: some drawn at random, each with copies in disguise and near misses.
fn pool(random: &mut Random, n: usize, m: usize) -> Vec<Known> {
    let mut pool = Vec::new();
    for _ in 0..12 {
        let plan = Known::new(m, &columns(random, n, m));
        pool.extend([plan.scrambled(random), plan.scrambled(random)]);
        pool.extend(plan.near_miss(random));
        pool.extend(plan.near_miss(random));
        pool.push(plan);
    }
    pool
}

#[test]
fn a_hundred_thousand_pairs_of_8_to_16_factors_are_compared_as_defined() {
    let mut random = Random::new(0xc0de_c0de_1234_4321);
    let mut counts = Counts::default();
    for (n, m) in sizes() {
        let pool = pool(&mut random, n, m);
        for first in &pool {
            for second in &pool {
                compare_known(&mut random, first, second, &mut counts);
            }
        }
    }
    assert!(counts.decided() >= 100_000, "{counts:?}");
    assert!(counts.same > 10_000 && counts.different > 50_000 && counts.alike > 500, "{counts:?}");
}

#[test]
fn tables_renamed_switched_and_shuffled_are_the_same() {
    let mut random = Random::new(0x0ddb_a115_0ddb_a115);
    let mut counts = Counts::default();
    for (n, m) in sizes() {
        for _ in 0..100 {
            let runs = runs_of_columns(m, &columns(&mut random, n, m));
            let (_, _, first) = disguised(&mut random, n, &runs);
            let (names, mask, second) = disguised(&mut random, n, &first);
            assert!(is_witness(n, &first, &second, &names, mask), "{names:?} {mask:#x}");
            let pair = Pair { n, g: n - m, form: Form::Runs, first, second };
            compare_pair(&pair, Expected::Same, n, &mut counts);
        }
    }
    assert!(counts.same >= 3_000, "{counts:?}");
}

#[test]
fn near_misses_are_mostly_different() {
    let mut random = Random::new(0xdead_10cc_dead_10cc);
    let mut counts = Counts::default();
    for _ in 0..300 {
        let plan = Known::new(7, &columns(&mut random, 16, 7));
        let miss = plan.near_miss(&mut random).expect("a column to change");
        let disguised = miss.scrambled(&mut random);
        compare_known(&mut random, &plan, &disguised, &mut counts);
        compare_known(&mut random, &disguised, &plan, &mut counts);
    }
    assert!(counts.different > 10 * counts.same, "{counts:?}");
}
