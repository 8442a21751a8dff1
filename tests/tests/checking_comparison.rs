//! The checking program's two ways to decide whether plans are the same, held against the definition, each other and published counts.

use plan_tests::check::labels::label;
use plan_tests::check::renamings::{differences, each_once, every_image, every_renaming, is_witness, reached, renamed};
use plan_tests::check::runs::{regular, runs_of_columns};
use plan_tests::known::{disguised, every_plan, Known};
use plan_tests::random::Random;
use plan_tests::samples::sample;
use std::collections::HashSet;

/// The largest number of factors for which every renaming is tried.
const MOST_TRIED: usize = 7;

fn sizes(most: usize) -> impl Iterator<Item = (usize, usize)> {
    (1..=most).flat_map(|n| (1..=n).map(move |m| (n, m)))
}

#[test]
fn a_renaming_moves_each_bit_to_its_new_factors_bit() {
    assert_eq!(renamed(&[2, 0, 1], 0b001), 0b100);
    assert_eq!(renamed(&[2, 0, 1], 0b110), 0b011);
    assert_eq!(renamed(&[0, 1, 2, 3], 0b1010), 0b1010);
}

#[test]
fn every_renaming_of_4_factors_is_visited_once() {
    let mut seen = HashSet::new();
    every_renaming(4, &mut |names| assert!(each_once(4, names) && seen.insert(names.to_vec())));
    assert_eq!(seen.len(), 24);
}

#[test]
fn a_witness_uses_each_factor_once_and_turns_one_set_of_runs_into_the_other() {
    let (first, second) = ([0, 5, 6, 3], [1, 2, 4, 7]);
    assert!(is_witness(3, &first, &first, &[0, 1, 2], 0));
    assert!(is_witness(3, &first, &first, &[2, 0, 1], 0b011));
    assert!(is_witness(3, &first, &second, &[1, 0, 2], 0b100));
    assert!(!is_witness(3, &first, &second, &[1, 0, 2], 0b110), "the first set again");
    assert!(!is_witness(3, &first, &second, &[1, 0, 1], 0b100), "a name twice");
    assert!(!is_witness(3, &first, &second, &[1, 0], 0b100), "two names");
    assert!(!is_witness(3, &first, &second, &[1, 0, 2, 3], 0b100), "four names");
    assert!(!is_witness(3, &first, &second, &[1, 0, 3], 0b100), "a name past the factors");
    assert!(!is_witness(3, &first, &second, &[1, 0, 2], 0b1100), "a mask past the factors");
}

#[test]
fn differences_are_the_same_from_every_run_of_a_regular_table() {
    let mut random = Random::new(0x77);
    for _ in 0..50 {
        let plan = sample(&mut random);
        let (_, _, table) = disguised(&mut random, plan.n, &runs_of_columns(plan.m, &plan.columns));
        assert!(regular(&table), "{table:?}");
        for i in 0..table.len() {
            let mut turned = table.clone();
            turned.swap(0, i);
            assert_eq!(differences(&turned), differences(&table), "from run {i} of {table:?}");
        }
    }
}

#[test]
fn labels_decide_as_every_renaming_with_every_mask_does_for_all_pairs_of_up_to_5_factors() {
    let mut random = Random::new(0x51);
    for (n, m) in sizes(5) {
        let plans: Vec<Known> = every_plan(n, m).iter().map(|columns| Known::new(m, columns)).collect();
        for first in &plans {
            for second in &plans {
                let (one, two) = (first.table(&mut random), second.table(&mut random));
                assert_eq!(first.label == second.label, reached(n, &one, &two), "{one:?} and {two:?}");
            }
        }
    }
}

#[test]
fn labels_decide_as_every_renaming_does_for_all_plans_of_up_to_7_factors() {
    for (n, m) in sizes(MOST_TRIED) {
        let plans: Vec<Vec<u32>> = every_plan(n, m).iter().map(|columns| runs_of_columns(m, columns)).collect();
        let labels: Vec<Vec<u32>> = plans.iter().map(|runs| label(n, runs)).collect();
        let mut classes: Vec<(HashSet<Vec<u32>>, &Vec<u32>)> = Vec::new();
        for (runs, label) in plans.iter().zip(&labels) {
            match classes.iter().find(|(images, _)| images.contains(&differences(runs))) {
                Some((_, first)) => assert_eq!(label, *first, "reached by a renaming, labels differ: {runs:?}"),
                None => classes.push((every_image(n, runs), label)),
            }
        }
        let different: HashSet<&Vec<u32>> = labels.iter().collect();
        assert_eq!(different.len(), classes.len(), "labels and classes of {n} factors, {m} basic");
        let members: usize = classes.iter().map(|(images, _)| images.len()).sum();
        assert_eq!(members, plans.len(), "plans in all classes of {n} factors, {m} basic");
    }
}

#[test]
fn labels_of_renamed_and_switched_plans_are_equal() {
    let mut random = Random::new(0x1abe1);
    for _ in 0..1000 {
        let plan = sample(&mut random);
        let known = Known::new(plan.m, &plan.columns);
        let (_, _, table) = disguised(&mut random, known.n, &known.runs);
        assert_eq!(label(known.n, &table), known.label, "{:?} and {table:?}", known.columns);
        let scrambled = known.scrambled(&mut random);
        assert_eq!(label(known.n, &scrambled.runs), known.label, "{:?} and {:?}", known.columns, scrambled.columns);
    }
}

#[test]
fn there_are_as_many_labels_of_plans_of_32_runs_as_document_000_has_designs() {
    // 32 runs, every plan whose first five columns are the basics: each plan is the same as one of these
    fn extend(n: usize, columns: &mut Vec<u32>, labels: &mut HashSet<Vec<u32>>) {
        if columns.len() == n {
            labels.insert(label(n, &runs_of_columns(5, columns)));
            return;
        }
        for column in columns[columns.len() - 1] + 1..32 {
            if !column.is_power_of_two() {
                columns.push(column);
                extend(n, columns, labels);
                columns.pop();
            }
        }
    }
    for (n, designs) in [(7, 8), (8, 15), (9, 29)] {
        let mut labels = HashSet::new();
        for third in (3..32u32).filter(|column| !column.is_power_of_two()) {
            extend(n, &mut vec![1, 2, 4, 8, 16, third], &mut labels);
        }
        assert_eq!(labels.len(), designs, "{n} factors");
    }
}

#[test]
fn p_and_q_of_document_01_have_one_pattern_and_two_labels() {
    let p = Known::new(6, &[1, 2, 4, 7, 8, 11, 16, 32, 61]);
    let q = Known::new(6, &[1, 2, 4, 7, 8, 16, 25, 32, 42]);
    assert_eq!(p.first_difference(&q), 0);
    assert_ne!(p.label, q.label);
}
