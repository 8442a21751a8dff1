//! The comparison of two lists of words by aberration.

use plan_tests::catalogues::{entries, patterns_and_beginnings};
use plan_tests::check::plan::{Form, Given, Plan, Question};
use plan_tests::compare::{compare_ranking, RANKING_ANSWERS};
use plan_tests::known::Known;
use plan_tests::published::{agrees, columns as columns_with, rows, Row, BASICS};
use plan_tests::random::Random;
use plan_tests::samples::{columns, damaged, generators, given, sample, Sample};

/// The first letters of the alphabet, as many as given.
fn word_of_length(letters: usize) -> u32 {
    (1 << letters) - 1
}

/// The list with this code of so many numbers below the bound.
fn list_of(code: usize, count: usize, bound: usize) -> Vec<u32> {
    (0..count).map(|place| (code / bound.pow(place as u32) % bound) as u32).collect()
}

#[test]
fn every_pair_of_lists_of_up_to_2_words_of_up_to_4_factors_is_ranked_as_defined() {
    let mut reached = [0; 9];
    for (n, g) in (1..=4).flat_map(|n| (0..=2).map(move |g| (n, g))) {
        let bound = (1 << n) + 1;
        for code in 0..usize::pow(bound, 2 * g as u32) {
            let words = list_of(code, 2 * g, bound);
            reached[compare_ranking(n, g, &words[..g], &words[g..]).refusal as usize] += 1;
        }
    }
    for number in [0, 2, 5, 6, 7] {
        assert!(reached[number] > 0, "never answered {number}: {reached:?}");
    }
}

#[test]
fn plans_of_one_word_are_ranked_at_the_shorter_words_length() {
    for n in 4..=8 {
        for first in 3..=n {
            for second in 3..=n {
                let found = compare_ranking(n, 1, &[word_of_length(first)], &[word_of_length(second)]);
                let better = if second > first { 2 } else { 1 };
                assert_eq!(found.better, better, "n {n}, words of {first} and {second} letters");
                let length = if first == second { 0 } else { first.min(second) };
                assert_eq!(found.length, length, "n {n}, words of {first} and {second} letters");
            }
        }
    }
}

#[test]
fn the_first_of_two_lists_of_one_plan_is_handed_back() {
    let mut random = Random::new(0xabcd_ef01_2345_6789);
    for _ in 0..200 {
        let plan = sample(&mut random);
        let (first, second) = (generators(&mut random, &plan), generators(&mut random, &plan));
        let found = compare_ranking(plan.n, plan.n - plan.m, &first, &second);
        assert_eq!((found.refusal, found.better), (0, 1), "n {} {first:?} {second:?}", plan.n);
    }
}

#[test]
fn random_pairs_of_plans_are_ranked_as_defined_in_both_orders() {
    let mut random = Random::new(0x4242_4242_1717_1717);
    let mut better = [0; 3];
    let mut lengths = [0; 17];
    for _ in 0..400 {
        let plan = sample(&mut random);
        let other = Sample { n: plan.n, m: plan.m, columns: columns(&mut random, plan.n, plan.m) };
        let (first, second) = (generators(&mut random, &plan), generators(&mut random, &other));
        for (first, second) in [(&first, &second), (&second, &first)] {
            let found = compare_ranking(plan.n, plan.n - plan.m, first, second);
            better[found.better as usize] += 1;
            lengths[found.length] += 1;
        }
    }
    assert!(better[1] > 0 && better[2] > 0, "handed back: {better:?}");
    assert!(lengths[0] > 0 && lengths[3] > 0 && lengths[4] > 0, "lengths that decided: {lengths:?}");
}

#[test]
fn damaged_pairs_are_refused_under_the_lowest_number_and_every_number_is_reached() {
    let mut random = Random::new(0x1357_9bdf_0246_8ace);
    let mut reached = [0; 9];
    for _ in 0..600 {
        let plan = sample(&mut random);
        let good = given(&mut random, &plan, Form::Words);
        let one = damaged(&mut random, &good);
        let two = damaged(&mut random, &good);
        for (first, second) in [(&one, &good), (&good, &one), (&one, &two)] {
            reached[compare_ranking(one.n, one.g, &first.list, &second.list).refusal as usize] += 1;
        }
    }
    for number in RANKING_ANSWERS {
        assert!(reached[number as usize] > 0, "never answered {number}: {reached:?}");
    }
}

/// A plan of m basic factors by its columns: G words that generate it, and its pattern, by the checking program.
fn known(m: usize, columns: &[u32]) -> (Vec<u32>, Vec<u32>) {
    let words = Plan::new(&Given::columns(columns.len(), columns.len() - m, columns, 0)).answer(Question::Words);
    (words, Known::new(m, columns).pattern)
}

/// The published criterion ranks by the first of all lengths that differs, so the better pattern comes first in dictionary order. Fails unless the
/// library chooses by that in both orders. Returns the answer.
fn chosen(n: usize, g: usize, (first, p): &(Vec<u32>, Vec<u32>), (second, q): &(Vec<u32>, Vec<u32>)) -> u8 {
    let found = [compare_ranking(n, g, first, second).better, compare_ranking(n, g, second, first).better];
    let published = [if q < p { 2 } else { 1 }, if p < q { 2 } else { 1 }];
    assert_eq!(found, published, "n {n}, words {first:?} and {second:?}, patterns {p:?} and {q:?}");
    found[0]
}

#[test]
fn entries_of_every_size_up_to_10_factors_are_ranked_by_the_published_criterion_in_both_orders() {
    let mut better = [0; 3];
    for (n, m) in (1..=10).flat_map(|n| (1..=n.min(7)).map(move |m| (n, m))) {
        let (whole, entries) = entries(n, n - m, 3, 1_000);
        assert!(whole, "{n} factors, {m} of them basic");
        let plans: Vec<_> = entries.iter().map(|entry| known(m, entry)).collect();
        for (k, plan) in plans.iter().enumerate() {
            for other in &plans[k..plans.len().min(k + 20)] {
                better[chosen(n, n - m, plan, other) as usize] += 1;
            }
        }
    }
    assert!(better[1] > 900 && better[2] > 4_000, "handed back: {better:?}");
}

/// Document 000's Appendix B has plans of 128 runs in the order of the criterion. A row is used where its recomputed pattern is the printed one.
#[test]
fn appendix_b_stands_in_the_order_of_aberration() {
    let rows: Vec<Row> = rows().into_iter().filter(agrees).collect();
    let (mut better, mut equal) = (0, 0);
    for pair in rows.windows(2).filter(|pair| pair[0].k == pair[1].k) {
        let [first, second] = [&pair[0], &pair[1]].map(|row| known(BASICS, &columns_with(&row.added)));
        assert_eq!(chosen(pair[0].k, pair[0].k - BASICS, &first, &second), 1, "{pair:?}");
        *if first.1 == second.1 { &mut equal } else { &mut better } += 1;
    }
    assert_eq!((better, equal), (54, 14), "pairs of which the first is better, and pairs of one pattern");
}

/// The first row of each size has minimum aberration: no entry of the catalogue is better.
#[test]
fn no_plan_of_128_runs_and_up_to_12_factors_has_less_aberration_than_the_first_of_appendix_b() {
    for n in 8..=12 {
        let row = rows().into_iter().find(|row| row.k == n).expect("a row");
        assert!(agrees(&row), "{row:?}");
        let best = known(BASICS, &columns_with(&row.added));
        let (whole, entries) = entries(n, n - BASICS, 3, 10_000);
        assert!(whole, "{n} factors");
        let alike: Vec<bool> = entries
            .iter()
            .map(|entry| {
                let entry = known(BASICS, entry);
                assert_eq!(chosen(n, n - BASICS, &best, &entry), 1, "{row:?} and {entry:?}");
                entry.1 == best.1
            })
            .collect();
        assert!(alike.contains(&true) && alike.contains(&false), "{n} factors: {alike:?}");
    }
}

/// Document 000 found in catalogues that patterns which agree up to length M agree wholly, and conjectures it for M 7 and up. Where it holds, no
/// plan is ranked otherwise than up to length M, as document 01 had it: by this test, in every size. The comparison goes to length N all the same.
#[test]
fn patterns_that_agree_from_length_3_to_m_agree_wholly() {
    let (mut sizes, mut plans) = (0, 0);
    for (n, m) in (1..=16).flat_map(|n| (1..=n.min(7)).map(move |m| (n, m))) {
        let (whole, entries) = entries(n, n - m, 3, 800_000);
        let (beginnings, patterns) = patterns_and_beginnings(m, &entries);
        assert!(whole && beginnings == patterns, "{n} factors, {m} of them basic: {beginnings} beginnings of {patterns} patterns");
        (sizes, plans) = (sizes + 1, plans + entries.len());
    }
    assert_eq!((sizes, plans), (91, 966_101), "sizes, and entries of all");
}
