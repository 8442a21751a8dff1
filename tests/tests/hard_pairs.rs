//! Plans that are hard to compare: alike but different, with words of even length only, or with many renamings onto themselves.

use plan_tests::compare_pairs::{compare_known, Counts};
use plan_tests::hard::{alike_pairs, odd_weight, p_and_q, symmetric};
use plan_tests::known::Known;
use plan_tests::random::Random;

/// For each factor the number of runs with 0 to 7 low levels in which it is low, the factors in an order that does not depend on their names.
fn letter_counts(plan: &Known) -> Vec<Vec<usize>> {
    let low = |f: usize, levels: usize| plan.runs.iter().filter(|&&run| run >> f & 1 == 1 && run.count_ones() as usize == levels).count();
    let mut counts: Vec<Vec<usize>> = (0..plan.n).map(|f| (0..8).map(|levels| low(f, levels)).collect()).collect();
    counts.sort();
    counts
}

/// Compares the plans with one another in disguise, in both orders, as often as asked.
fn compare_often(random: &mut Random, plans: &[Known], times: usize, counts: &mut Counts) {
    for first in plans {
        for second in plans {
            for _ in 0..times {
                let (first, second) = (first.scrambled(random), second.scrambled(random));
                compare_known(random, &first, &second, counts);
            }
        }
    }
}

#[test]
fn p_and_q_are_different_in_every_disguise() {
    let mut random = Random::new(0x90);
    let mut counts = Counts::default();
    let (p, q) = p_and_q();
    compare_often(&mut random, &[Known::new(p.0, &p.1), Known::new(q.0, &q.1)], 200, &mut counts);
    assert_eq!((counts.same, counts.alike), (400, 400), "{counts:?}");
}

#[test]
fn plans_whose_factors_are_low_in_as_many_runs_are_told_apart() {
    let mut random = Random::new(0xa11e);
    let mut counts = Counts::default();
    for (first, second) in alike_pairs() {
        let (first, second) = (Known::new(first.0, &first.1), Known::new(second.0, &second.1));
        assert_eq!(letter_counts(&first), letter_counts(&second), "letter counts of {:?} and {:?}", first.columns, second.columns);
        assert_ne!(first.label, second.label, "labels of {:?} and {:?}", first.columns, second.columns);
        compare_often(&mut random, &[first, second], 10, &mut counts);
    }
    assert!(counts.alike >= 50 * 20, "{counts:?}");
    assert_eq!(counts.alike, counts.same, "{counts:?}");
}

#[test]
fn plans_with_words_of_even_length_only_are_compared_as_defined() {
    let mut random = Random::new(0xe7e4);
    let mut counts = Counts::default();
    for (n, m) in [(8, 5), (9, 6), (10, 6), (12, 6), (16, 6), (12, 7), (14, 7), (16, 7)] {
        let plans: Vec<Known> = (0..40).map(|_| odd_weight(&mut random, n, m)).map(|(m, columns)| Known::new(m, &columns)).collect();
        assert!(plans.iter().all(|plan| plan.pattern.iter().step_by(2).all(|&count| count == 0)), "words of odd length");
        compare_often(&mut random, &plans, 1, &mut counts);
    }
    assert!(counts.same > 1000 && counts.different > 1000 && counts.alike > 100, "{counts:?}");
}

#[test]
fn plans_with_many_renamings_onto_themselves_are_the_same_as_their_disguises() {
    let mut random = Random::new(0x5e1f);
    let mut counts = Counts::default();
    for (k, (what, (m, columns))) in symmetric().into_iter().enumerate() {
        let plan = Known::new(m, &columns);
        compare_often(&mut random, &[plan], 100, &mut counts);
        assert_eq!((counts.same, counts.different), (100 * (k + 1), 0), "{what}");
    }
}

#[test]
fn plans_with_many_renamings_onto_themselves_are_compared_with_near_misses_as_defined() {
    let mut random = Random::new(0x3a55);
    let mut counts = Counts::default();
    for (_, (m, columns)) in symmetric() {
        let plan = Known::new(m, &columns);
        let misses: Vec<Known> = (0..12).filter_map(|_| plan.near_miss(&mut random)).collect();
        let second: Vec<Known> = misses.iter().filter_map(|miss| miss.near_miss(&mut random)).collect();
        let plans: Vec<Known> = [vec![plan], misses, second].concat();
        compare_often(&mut random, &plans, 1, &mut counts);
    }
    assert!(counts.same > 1000 && counts.different > 1000 && counts.alike > 10, "{counts:?}");
}
