//! Catalogues: every small size by enumeration, larger ones by counting sets of columns and by the published counts, every resolution, lists of
//! every length, and refusals.

use plan_tests::catalogues::{
    catalogue, compare_catalogue, compare_refused, confirm_entries, entries, every_smallest_form, refusal, with_resolution,
};
use plan_tests::check::columns::rank_is;
use plan_tests::check::counting::sets_of_rank;
use plan_tests::check::growth::{grown, Grown};
use plan_tests::check::labels::label;
use plan_tests::check::plan::stride;
use plan_tests::check::renamings::{differences, every_renaming, renamed};
use plan_tests::check::runs::runs_of_columns;
use plan_tests::check::smallest::{
    every_rising_list, first_forms, first_of_each_image, first_of_each_label, no_word_below, smallest_and_orders,
};
use std::collections::BTreeSet;

/// Every size with up to this many factors: N and M.
fn sizes(most: usize) -> impl Iterator<Item = (usize, usize)> {
    (1..=most).flat_map(|n| (1..=n.min(7)).map(move |m| (n, m)))
}

#[test]
fn the_checking_programs_forms_are_the_first_rising_lists_that_no_renaming_reaches() {
    for (n, m) in sizes(6).filter(|&(n, m)| m <= 4 || n == 5) {
        assert_eq!(every_smallest_form(n, m), first_of_each_image(n, m), "{n} factors, {m} basic");
    }
}

#[test]
fn the_checking_programs_forms_are_the_first_rising_lists_of_each_label() {
    for (n, m) in sizes(9).filter(|&(_, m)| m <= 4) {
        assert_eq!(every_smallest_form(n, m), first_of_each_label(n, m), "{n} factors, {m} basic");
    }
}

#[test]
fn the_checking_programs_forms_have_different_labels() {
    for (n, m) in sizes(8) {
        let forms = every_smallest_form(n, m);
        let labels: BTreeSet<Vec<u32>> = forms.iter().map(|form| label(n, &runs_of_columns(m, form))).collect();
        assert_eq!(labels.len(), forms.len(), "{n} factors, {m} basic");
    }
}

#[test]
fn the_checking_programs_growth_finds_the_forms_that_it_enumerates() {
    for (m, r) in (1..=7).flat_map(|m| (3..=6).map(move |r| (m, r))) {
        for (g, catalogue) in grown(m, r, 8, 1_000).into_iter().enumerate() {
            let enumerated = with_resolution(&every_smallest_form(m + g, m), r);
            assert_eq!(catalogue, Grown::All(enumerated), "{} factors, {m} basic, resolution {r}", m + g);
        }
    }
}

#[test]
fn the_checking_programs_growth_has_the_published_counts() {
    let counts: Vec<usize> = grown(5, 3, 11, 1_000).iter().map(|catalogue| catalogue.forms().len()).collect();
    assert_eq!(counts, [1, 4, 8, 15, 29, 46, 64]);
    let counts: Vec<usize> = grown(6, 3, 10, 1_000).iter().map(|catalogue| catalogue.forms().len()).collect();
    assert_eq!(counts, [1, 5, 14, 38, 105]);
    let catalogues = grown(5, 3, 11, 50);
    assert!(matches!(catalogues[5], Grown::All(_)) && matches!(catalogues[6], Grown::Some(_)), "64 entries are more than 50");
}

#[test]
fn the_checking_programs_first_forms_are_those_that_it_enumerates() {
    for (n, m) in sizes(8) {
        let forms = every_smallest_form(n, m);
        assert_eq!(first_forms(n, m, usize::MAX), forms, "{n} factors, {m} basic");
        assert_eq!(first_forms(n, m, 2), forms[..forms.len().min(2)], "{n} factors, {m} basic");
    }
}

#[test]
fn the_checking_programs_orders_are_as_many_as_the_renamings_onto_itself() {
    for (n, m) in sizes(7) {
        for form in every_smallest_form(n, m) {
            let given = differences(&runs_of_columns(m, &form));
            let mut onto_itself = 0;
            every_renaming(n, &mut |names| onto_itself += usize::from(given.iter().all(|&row| given.contains(&renamed(names, row)))));
            assert_eq!(smallest_and_orders(m, &form).1, onto_itself, "{form:?}, {m} basic");
        }
    }
}

#[test]
fn the_checking_programs_count_of_sets_of_columns_is_that_of_the_rising_lists() {
    for (n, m) in sizes(15).filter(|&(n, m)| m <= 4 || n == 5) {
        let mut sets = 0;
        every_rising_list(n, m, &mut |list| sets += u128::from(rank_is(m, list)));
        assert_eq!(sets_of_rank(n, m), sets, "{n} factors, {m} basic");
    }
}

#[test]
fn every_catalogue_of_up_to_8_factors_is_exactly_the_enumerated_one_for_lists_of_every_room() {
    let mut compared = 0;
    for (n, m) in sizes(8) {
        let forms = every_smallest_form(n, m);
        for r in 3..=3.max(n + 1) {
            let entries = with_resolution(&forms, r);
            for room in 0..=entries.len() + 1 {
                compare_catalogue(n, n - m, r, &entries, room * stride(n));
                compare_catalogue(n, n - m, r, &entries, room * stride(n) + stride(n) - 1);
            }
            compare_catalogue(n, n - m, r, &entries, entries.len() * stride(n) + 100);
            compared += 1;
        }
    }
    assert_eq!(compared, 162);
}

#[test]
fn a_full_factorial_meets_every_resolution_and_no_other_plan_one_above_its_factors() {
    for (n, m) in sizes(16) {
        let full = vec![(0..m).map(|i| 1 << i).collect()];
        for r in if n == m { 3..=16 } else { 3.max(n + 1)..=16 } {
            let entries = if n == m { full.clone() } else { Vec::new() };
            compare_catalogue(n, n - m, r, &entries, 3 * stride(n));
        }
    }
}

/// The lowest R whose catalogue is quick to list, and that catalogue as the library gives it: R 3, but for the largest size.
fn lowest_resolution(n: usize, m: usize) -> (usize, Vec<Vec<u32>>) {
    let r = if (n, m) == (16, 7) { 4 } else { 3 };
    let whole = [1_000, 30_000, 140_000].into_iter().map(|room| entries(n, n - m, r, room)).find(|(whole, _)| *whole);
    (r, whole.unwrap_or_else(|| panic!("{n} {} {r} has more entries", n - m)).1)
}

#[test]
fn a_higher_resolution_has_the_entries_of_a_lower_one_that_have_no_shorter_word() {
    for (n, m) in sizes(16) {
        let (least, mut entries) = lowest_resolution(n, m);
        for r in least + 1..=16 {
            entries = with_resolution(&entries, r);
            compare_catalogue(n, n - m, r, &entries, entries.len() * stride(n));
            compare_catalogue(n, n - m, r, &entries, entries.len() / 2 * stride(n));
        }
    }
}

#[test]
fn lists_shorter_than_one_entry_and_every_length_between_entries() {
    for (n, m) in [(5, 4), (6, 4), (7, 5)] {
        let entries = with_resolution(&every_smallest_form(n, m), 3);
        for places in 0..=(entries.len() + 2) * stride(n) {
            compare_catalogue(n, n - m, 3, &entries, places);
        }
    }
}

/// The entries of a size: their count, after each was confirmed; for R 3, after no plan was found to be missing.
fn count(n: usize, m: usize, r: usize) -> usize {
    catalogue(n, m, r, 30_000).len()
}

/// The same of a size whose entries take long to confirm: some of them are.
fn count_by_some(n: usize, m: usize, r: usize) -> usize {
    let (whole, entries) = entries(n, n - m, r, 10_000);
    assert!(whole && entries.is_sorted_by(|one, next| one < next), "{n} {} {r}", n - m);
    assert!(entries.iter().all(|entry| no_word_below(r, entry)), "{n} {} {r}", n - m);
    let some: Vec<Vec<u32>> = entries.iter().step_by(40).cloned().collect();
    confirm_entries(m, r, &some);
    entries.len()
}

#[test]
fn the_examples_of_document_01() {
    let lists = |n, m, r| catalogue(n, m, r, 10);
    assert_eq!(lists(1, 1, 3), [[1]]);
    assert_eq!(lists(3, 3, 3), [[1, 2, 4]]);
    assert!(lists(4, 2, 3).is_empty());
    assert_eq!(lists(4, 3, 3), [[1, 2, 3, 4], [1, 2, 4, 7]]);
    assert_eq!(lists(5, 4, 3), [[1, 2, 3, 4, 8], [1, 2, 4, 7, 8], [1, 2, 4, 8, 15]]);
    assert_eq!(lists(6, 4, 3), [[1, 2, 3, 4, 5, 8], [1, 2, 3, 4, 8, 12], [1, 2, 3, 4, 8, 13], [1, 2, 4, 7, 8, 11]]);
    assert_eq!(lists(6, 4, 4), [[1, 2, 4, 7, 8, 11]]);
    assert_eq!(lists(7, 3, 3), [[1, 2, 3, 4, 5, 6, 7]]);
    assert!(lists(8, 3, 3).is_empty());
}

#[test]
fn no_more_than_7_factors_stand_in_8_runs() {
    let counts: Vec<usize> = (3..=16).map(|n| count(n, 3, 3)).collect();
    assert_eq!(counts, [1, 2, 1, 1, 1, 0, 0, 0, 0, 0, 0, 0, 0, 0]);
}

#[test]
fn counts_of_document_002_in_16_runs() {
    let counts: Vec<usize> = (5..=16).map(|n| count(n, 4, 3)).collect();
    assert_eq!(counts, [3, 4, 5, 6, 5, 4, 3, 2, 1, 1, 1, 0]);
}

#[test]
fn counts_of_documents_000_and_002_in_32_runs() {
    let counts: Vec<usize> = (5..=16).map(|n| count(n, 5, 3)).collect();
    assert_eq!(counts, [1, 4, 8, 15, 29, 46, 64, 89, 112, 128, 144, 145]);
}

#[test]
fn counts_of_document_002_in_64_runs() {
    let counts: Vec<usize> = (6..=16).map(|n| count(n, 6, 3)).collect();
    assert_eq!(counts, [1, 5, 14, 38, 105, 273, 700, 1_794, 4_579, 11_635, 29_091]);
}

#[test]
fn counts_of_documents_000_and_002_in_128_runs() {
    let counts: Vec<usize> = (7..=13).map(|n| count(n, 7, 4)).chain((14..=16).map(|n| count_by_some(n, 7, 4))).collect();
    assert_eq!(counts, [1, 5, 13, 33, 92, 249, 623, 1_535, 3_522, 7_500]);
}

/// No document has these counts: that no plan is missing is seen by counting sets of columns.
#[test]
fn no_plan_of_up_to_14_factors_in_128_runs_is_missing() {
    let counts: Vec<usize> = (7..=14).map(|n| count(n, 7, 3)).collect();
    assert_eq!(counts, [1, 6, 22, 80, 312, 1_285, 5_632, 26_792]);
}

#[test]
fn document_000_from_12_factors_on_no_plan_in_128_runs_has_resolution_5() {
    assert_eq!(count(11, 7, 5), 1);
    for (n, r) in (12..=16).flat_map(|n| (5..=16).map(move |r| (n, r))) {
        compare_catalogue(n, n - 7, r, &Vec::new(), stride(n));
    }
}

#[test]
fn every_size_fills_a_short_list_with_its_first_smallest_forms() {
    for (n, m) in sizes(16) {
        let first = first_forms(n, m, 4);
        for room in 0..=3 {
            compare_catalogue(n, n - m, 3, &first, room * stride(n));
            compare_catalogue(n, n - m, 3, &first, room * stride(n) + stride(n) - 1);
        }
    }
}

#[test]
fn every_refused_size_is_refused_under_the_lowest_number_and_touches_nothing() {
    let numbers: Vec<usize> = (0..=26).chain([64, 128, 255, 256, 259, 65536 + 5, 1 << 32, usize::MAX - 1, usize::MAX]).collect();
    let mut reached = [0; 4];
    for &n in &numbers {
        for &g in &numbers {
            for &r in numbers.iter().filter(|&&r| refusal(n, g, r) != 0) {
                for places in [0, 7, 40] {
                    compare_refused(n, g, r, places);
                }
                reached[refusal(n, g, r) as usize] += 1;
            }
        }
    }
    assert!(reached[1..].iter().all(|&count| count > 1_000), "{reached:?}");
}
