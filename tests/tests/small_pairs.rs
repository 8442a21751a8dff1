//! Every pair of plans of a size, for up to seven factors, compared as columns and as run tables.

use plan_tests::check::plan::{plan_bytes, Form};
use plan_tests::check::renamings::{differences, every_image};
use plan_tests::check::runs::runs_of_columns;
use plan_tests::compare_pairs::{compare_known, compare_pair, expected, Counts};
use plan_tests::known::{every_plan, in_other_basics, Known};
use plan_tests::pairs::Pair;
use plan_tests::random::Random;
use plan_tests::samples::any_mask;
use std::collections::HashSet;

/// Every plan of a size. The label is that of the first plan from which some renaming reaches it: every renaming is tried.
fn plans(random: &mut Random, n: usize, m: usize) -> Vec<Known> {
    let mut classes: Vec<(HashSet<Vec<u32>>, Vec<u32>)> = Vec::new();
    let mut plans = Vec::new();
    for columns in every_plan(n, m) {
        let runs = runs_of_columns(m, &columns);
        let place = classes.iter().position(|(images, _)| images.contains(&differences(&runs))).unwrap_or_else(|| {
            classes.push((every_image(n, &runs), differences(&runs)));
            classes.len() - 1
        });
        let plan = Known { label: classes[place].1.clone(), ..Known::new(m, &columns) };
        let columns = in_other_basics(random, m, &plan.columns);
        plans.push(Known { columns, ..plan });
    }
    plans
}

/// Compares every two plans of a size, in one order or the other, and each with itself. Returns what they came to.
fn compare_all(n: usize, m: usize) -> Counts {
    let mut random = Random::new(0x9000 + (n * 16 + m) as u64);
    let mut counts = Counts::default();
    let plans = plans(&mut random, n, m);
    for i in 0..plans.len() {
        for j in 0..=i {
            let (first, second) = if random.below(2) == 0 { (i, j) } else { (j, i) };
            compare_known(&mut random, &plans[first], &plans[second], &mut counts);
        }
    }
    counts
}

#[test]
fn every_pair_of_up_to_6_factors_is_compared_as_defined_in_both_forms() {
    let mut counts = Counts::default();
    for (n, m) in (1..=6).flat_map(|n| (1..=n).map(move |m| (n, m))) {
        let mut random = Random::new(0x600 + (n * 16 + m) as u64);
        let plans = plans(&mut random, n, m);
        for first in &plans {
            for second in &plans {
                let expected = expected(first, second);
                let [one, two] = [first, second].map(|plan| plan_bytes(&plan.columns, any_mask(&mut random, &plan.columns)));
                let switched = Pair { n, g: n - m, form: Form::Columns, first: one, second: two };
                compare_pair(&switched, expected, n, &mut counts);
                let [one, two] = [first, second].map(|plan| plan_bytes(&plan.columns, 0));
                compare_pair(&Pair { first: one, second: two, ..switched }, expected, n, &mut counts);
                let runs = Pair { n, g: n - m, form: Form::Runs, first: first.table(&mut random), second: second.table(&mut random) };
                compare_pair(&runs, expected, n + 1, &mut counts);
            }
        }
    }
    assert!(counts.same > 5_000 && counts.different > 10_000, "{counts:?}");
}

#[test]
fn every_pair_of_7_factors_with_3_6_or_7_basic_is_compared_as_defined() {
    let counts = [3, 6, 7].map(|m| compare_all(7, m));
    assert_eq!(counts[0].different, 0, "all thirty are the same: {counts:?}");
    assert!(counts[1].different > 2_000, "{counts:?}");
}

#[test]
fn every_pair_of_7_factors_with_4_basic_is_compared_as_defined() {
    let counts = compare_all(7, 4);
    assert!(counts.same > 400_000 && counts.different > 800_000, "{counts:?}");
}

#[test]
fn every_pair_of_7_factors_with_5_basic_is_compared_as_defined() {
    let counts = compare_all(7, 5);
    assert!(counts.same > 100_000 && counts.different > 500_000, "{counts:?}");
}
