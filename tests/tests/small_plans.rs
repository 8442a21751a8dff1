//! Every list of small sizes: words, columns and run tables, in order and out of it.

use plan_tests::check::columns::last_letters;
use plan_tests::check::plan::{plan_bytes, Form, Given};
use plan_tests::compare::{compare, Lending, Tally};
use plan_tests::random::Random;

/// Visits every list of this many of the values.
fn every_list(values: &[u32], count: usize, visit: &mut dyn FnMut(&[u32])) {
    fn extend(values: &[u32], count: usize, list: &mut Vec<u32>, visit: &mut dyn FnMut(&[u32])) {
        if list.len() == count {
            return visit(list);
        }
        for &value in values {
            list.push(value);
            extend(values, count, list, visit);
            list.pop();
        }
    }
    extend(values, count, &mut Vec::new(), visit);
}

/// Visits every list of this many of the values that does not fall; with `rise`, that rises.
fn every_rising_list(values: &[u32], count: usize, rise: usize, visit: &mut dyn FnMut(&[u32])) {
    fn extend(values: &[u32], from: usize, count: usize, rise: usize, list: &mut Vec<u32>, visit: &mut dyn FnMut(&[u32])) {
        if list.len() == count {
            return visit(list);
        }
        for i in from..values.len() {
            list.push(values[i]);
            extend(values, i + rise, count, rise, list, visit);
            list.pop();
        }
    }
    extend(values, 0, count, rise, &mut Vec::new(), visit);
}

/// All numbers below the bound.
fn below(bound: u32) -> Vec<u32> {
    (0..bound).collect()
}

/// All numbers below the bound, the bound itself and the largest of this many bits.
fn below_and_past(bound: u32, bits: u32) -> Vec<u32> {
    (0..=bound).chain([(1 << bits) - 1]).collect()
}

/// A list as a call takes it, words with plus signs.
fn compare_list(n: usize, g: usize, form: Form, list: &[u32], lending: Lending, tally: &mut Tally) {
    compare(&Given { n, g, form, list: list.to_vec(), signs: 0 }, lending, tally);
}

/// Words with all signs, those of no word too, and some that are far from any word.
fn compare_words(n: usize, g: usize, words: &[u32], lending: Lending, tally: &mut Tally) {
    for signs in (0..2 << g).chain([1 << 8, 1 << 15]) {
        compare(&Given::words(n, g, words, signs), lending, tally);
    }
}

/// Columns with all masks of n + 1 bits, barred ones too, and some that are far from any factor.
fn compare_columns(n: usize, g: usize, columns: &[u32], lending: Lending, tally: &mut Tally) {
    for mask in (0..2 << n).chain([1 << 8, 1 << 15]) {
        compare(&Given::columns(n, g, columns, mask), lending, tally);
    }
}

#[test]
fn every_list_of_words_of_up_to_4_factors_with_all_signs_is_answered_as_defined() {
    let mut tally = Tally::new();
    for n in 1..=4 {
        for g in 0..n {
            let visit = &mut |list: &[u32]| compare_words(n, g, list, Lending::AnyOne, &mut tally);
            every_list(&below_and_past(1 << n, 16), g, visit);
        }
    }
    tally.assert_reached(Form::Words, &[0, 5, 6, 7, 8]);
}

#[test]
fn every_list_of_words_of_up_to_4_factors_is_answered_as_defined() {
    let mut tally = Tally::new();
    for n in 1..=4 {
        for g in 0..n {
            let visit = &mut |list: &[u32]| compare_list(n, g, Form::Words, list, Lending::Every, &mut tally);
            every_list(&below_and_past(1 << n, 16), g, visit);
        }
    }
    tally.assert_reached(Form::Words, &[0, 5, 6, 7, 8]);
}

#[test]
fn every_list_of_up_to_3_words_of_5_factors_with_all_signs_is_answered_as_defined() {
    let mut tally = Tally::new();
    for g in 0..=3 {
        let visit = &mut |list: &[u32]| compare_words(5, g, list, Lending::AnyOne, &mut tally);
        every_list(&below(1 << 5), g, visit);
    }
    tally.assert_reached(Form::Words, &[0, 5, 6, 7, 8]);
}

#[test]
fn every_list_of_words_of_5_factors_is_answered_as_defined() {
    let mut tally = Tally::new();
    for g in 0..4 {
        let visit = &mut |list: &[u32]| compare_list(5, g, Form::Words, list, Lending::Every, &mut tally);
        every_list(&below_and_past(1 << 5, 16), g, visit);
    }
    let visit = &mut |list: &[u32]| compare_list(5, 4, Form::Words, list, Lending::AnyOne, &mut tally);
    every_list(&below(1 << 5), 4, visit);
    tally.assert_reached(Form::Words, &[0, 5, 6, 7, 8]);
}

#[test]
fn every_list_of_up_to_3_words_of_6_factors_is_answered_as_defined() {
    let mut tally = Tally::new();
    for g in 0..=3 {
        let visit = &mut |list: &[u32]| compare_list(6, g, Form::Words, list, Lending::AnyOne, &mut tally);
        every_list(&below_and_past(1 << 6, 16), g, visit);
    }
    tally.assert_reached(Form::Words, &[0, 5, 6, 7, 8]);
}

#[test]
fn every_list_of_columns_of_up_to_4_factors_is_answered_as_defined() {
    let mut tally = Tally::new();
    for n in 1..=4 {
        for g in 0..n {
            let visit = &mut |list: &[u32]| compare_list(n, g, Form::Columns, &plan_bytes(list, 0), Lending::Every, &mut tally);
            every_list(&below_and_past(1 << (n - g), 8), n, visit);
        }
    }
    tally.assert_reached(Form::Columns, &[0, 5, 6, 7, 8]);
}

#[test]
fn every_list_of_columns_of_up_to_3_factors_with_every_mask_and_lists_of_every_kind_is_answered_as_defined() {
    let mut tally = Tally::new();
    for n in 1..=3 {
        for g in 0..n {
            let visit = &mut |list: &[u32]| compare_columns(n, g, list, Lending::Every, &mut tally);
            every_list(&below_and_past(1 << (n - g), 8), n, visit);
        }
    }
    tally.assert_reached(Form::Columns, &[0, 5, 6, 7, 8]);
}

#[test]
fn every_list_of_columns_of_4_factors_with_every_mask_is_answered_as_defined() {
    let mut tally = Tally::new();
    for g in 0..4 {
        let visit = &mut |list: &[u32]| compare_columns(4, g, list, Lending::AnyOne, &mut tally);
        every_list(&below(1 << (4 - g)), 4, visit);
    }
    tally.assert_reached(Form::Columns, &[0, 5, 6, 7, 8]);
}

#[test]
fn every_list_of_columns_of_5_factors_with_up_to_3_basic_and_every_mask_is_answered_as_defined() {
    let mut tally = Tally::new();
    for m in 1..=3 {
        let visit = &mut |list: &[u32]| {
            for mask in 0..1 << 5 {
                compare(&Given::columns(5, 5 - m, list, mask), Lending::AnyOne, &mut tally);
            }
        };
        every_list(&below(1 << m), 5, visit);
    }
    tally.assert_reached(Form::Columns, &[0, 5, 6, 7, 8]);
}

#[test]
fn every_list_of_columns_of_5_factors_with_up_to_4_basic_is_answered_as_defined() {
    let mut tally = Tally::new();
    for m in 1..=3 {
        let visit = &mut |list: &[u32]| compare_list(5, 5 - m, Form::Columns, &plan_bytes(list, 0), Lending::AnyOne, &mut tally);
        every_list(&below_and_past(1 << m, 8), 5, visit);
    }
    // all that may be switched is so in one of three
    let visit = &mut |list: &[u32]| {
        let mask = if list.iter().sum::<u32>() % 3 == 0 { last_letters(list) } else { 0 };
        compare(&Given::columns(5, 1, list, mask), Lending::AnyOne, &mut tally);
    };
    every_list(&below(1 << 4), 5, visit);
    tally.assert_reached(Form::Columns, &[0, 5, 6, 7, 8]);
}

#[test]
fn every_list_of_columns_of_6_factors_with_up_to_3_basic_is_answered_as_defined() {
    let mut tally = Tally::new();
    for m in 1..=3 {
        let visit = &mut |list: &[u32]| compare_list(6, 6 - m, Form::Columns, &plan_bytes(list, 0), Lending::AnyOne, &mut tally);
        let columns: Vec<u32> = (0..=1 << m).collect();
        every_list(&columns, 6, visit);
    }
    tally.assert_reached(Form::Columns, &[0, 5, 6, 7, 8]);
}

#[test]
fn every_table_of_up_to_4_runs_of_up_to_3_factors_is_answered_as_defined() {
    let mut tally = Tally::new();
    for n in 1..=3 {
        for m in 1..=n.min(2) {
            let visit = &mut |list: &[u32]| compare_list(n, n - m, Form::Runs, list, Lending::Every, &mut tally);
            every_list(&below_and_past(1 << n, 16), 1 << m, visit);
        }
    }
    tally.assert_reached(Form::Runs, &[0, 5, 6, 7, 8]);
}

#[test]
fn every_choice_of_8_runs_of_3_factors_is_answered_as_defined_in_three_orders() {
    let mut tally = Tally::new();
    let mut random = Random::new(8);
    let visit = &mut |list: &[u32]| {
        let mut list = list.to_vec();
        compare_list(3, 0, Form::Runs, &list, Lending::AnyOne, &mut tally);
        list.reverse();
        compare_list(3, 0, Form::Runs, &list, Lending::AnyOne, &mut tally);
        random.shuffle(&mut list);
        compare_list(3, 0, Form::Runs, &list, Lending::AnyOne, &mut tally);
    };
    every_rising_list(&below_and_past(1 << 3, 16), 8, 0, visit);
    tally.assert_reached(Form::Runs, &[5, 6]);
}

#[test]
fn every_order_of_the_8_runs_of_3_factors_is_answered_as_defined() {
    fn orders(runs: &mut Vec<u32>, placed: usize, visit: &mut dyn FnMut(&[u32])) {
        if placed == runs.len() {
            return visit(runs);
        }
        for i in placed..runs.len() {
            runs.swap(placed, i);
            orders(runs, placed + 1, visit);
            runs.swap(placed, i);
        }
    }
    let mut tally = Tally::new();
    orders(&mut (0..8).collect(), 0, &mut |list| compare_list(3, 0, Form::Runs, list, Lending::AnyOne, &mut tally));
    tally.assert_reached(Form::Runs, &[0, 8]);
}

#[test]
fn every_set_of_runs_of_4_factors_is_answered_as_defined() {
    let mut tally = Tally::new();
    for m in 1..=4 {
        let visit = &mut |list: &[u32]| compare_list(4, 4 - m, Form::Runs, list, Lending::Every, &mut tally);
        every_rising_list(&below(1 << 4), 1 << m, 1, visit);
    }
    tally.assert_reached(Form::Runs, &[0, 6, 7, 8]);
}

#[test]
fn every_set_of_4_runs_of_5_factors_is_answered_as_defined() {
    let mut tally = Tally::new();
    let visit = &mut |list: &[u32]| compare_list(5, 3, Form::Runs, list, Lending::AnyOne, &mut tally);
    every_rising_list(&below(1 << 5), 4, 1, visit);
    tally.assert_reached(Form::Runs, &[6, 7]);
}

#[test]
fn lists_of_every_wrong_count_are_refused_under_4() {
    let mut tally = Tally::new();
    for form in [Form::Words, Form::Columns, Form::Runs] {
        for (n, g) in [(1, 0), (3, 1), (4, 1), (7, 3), (16, 9)] {
            for count in 0..140 {
                compare_list(n, g, form, &vec![1; count], Lending::Every, &mut tally);
                compare_list(n, g, form, &vec![0xff; count], Lending::Every, &mut tally);
                let unswitched = [vec![1; count.saturating_sub(2)], vec![0; count.min(2)]].concat();
                compare_list(n, g, form, &unswitched, Lending::Every, &mut tally);
            }
        }
        tally.assert_reached(form, &[4, 6]);
    }
}

#[test]
fn every_size_is_refused_under_1_or_2_as_defined() {
    let mut tally = Tally::new();
    let sizes: Vec<usize> =
        (0..=26).chain([63, 64, 65, 127, 128, 255, 256, 257, 65535, 65536, 65537, 1 << 32, usize::MAX - 1, usize::MAX]).collect();
    for &n in &sizes {
        for &g in &sizes {
            for form in [Form::Words, Form::Columns, Form::Runs] {
                compare_list(n, g, form, &[], Lending::Every, &mut tally);
                compare_list(n, g, form, &[1, 2, 4, 7], Lending::Every, &mut tally);
                compare_list(n, g, form, &[1, 2, 4, 7, 0, 0], Lending::AnyOne, &mut tally);
            }
        }
    }
    for form in [Form::Words, Form::Columns, Form::Runs] {
        tally.assert_reached(form, &[1, 2, 4]);
    }
}
