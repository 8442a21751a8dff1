//! Random plans of up to 16 factors, good and damaged, from fixed seeds.

use plan_tests::calls::call;
use plan_tests::check::plan::{plan_bytes, Form, Given, Plan, Question};
use plan_tests::check::refusals::accepted;
use plan_tests::compare::{compare, Lending, Tally, ANSWERS};
use plan_tests::random::Random;
use plan_tests::samples::{any_mask, any_signs, damaged, given, sample, short_sample};
use std::collections::BTreeSet;

const FORMS: [Form; 3] = [Form::Words, Form::Columns, Form::Runs];

/// The answer of a call that must accept, as the library gives it.
fn answered(given: &Given, question: Question, places: usize) -> Vec<u32> {
    let outcome = call(given, question, places);
    assert_eq!(outcome.answer, 0, "{question:?} of {given:?}");
    outcome.result(places)
}

/// The plan that the checking program has.
fn expected(given: &Given) -> Plan {
    accepted(given).unwrap_or_else(|number| panic!("{given:?} refused under {number}"))
}

/// The plan that the library gives by columns: a plan in bytes.
fn by_columns(given: &Given) -> Given {
    Given { form: Form::Columns, list: answered(given, Question::Columns, given.n + 2), signs: 0, ..*given }
}

/// The words that the library gives, with their signs.
fn by_words(given: &Given) -> Given {
    let outcome = call(given, Question::Words, given.g);
    assert_eq!(outcome.answer, 0, "words of {given:?}");
    Given { form: Form::Words, list: outcome.result(given.g), signs: outcome.signs, ..*given }
}

/// The runs that the library gives.
fn by_runs(given: &Given) -> Given {
    Given { form: Form::Runs, list: answered(given, Question::Runs, 1 << (given.n - given.g)), signs: 0, ..*given }
}

/// The set of runs of a list.
fn runs(given: &Given) -> BTreeSet<u32> {
    expected(given).runs.into_iter().collect()
}

#[test]
fn random_plans_in_every_form_are_answered_as_defined() {
    let mut random = Random::new(0x9e37_79b9_7f4a_7c15);
    let mut tally = Tally::new();
    let mut largest = 0;
    for _ in 0..600 {
        let plan = sample(&mut random);
        largest += usize::from((plan.n, plan.m) == (16, 7));
        for form in FORMS {
            compare(&given(&mut random, &plan, form), Lending::Every, &mut tally);
        }
    }
    assert!(largest > 50, "plans of 16 factors with 7 basic: {largest}");
    FORMS.iter().for_each(|&form| tally.assert_reached(form, &[0, 8]));
}

#[test]
fn damaged_lists_are_refused_under_the_lowest_number_and_every_number_is_reached() {
    let mut random = Random::new(0xd1b5_4a32_d192_ed03);
    let mut tally = Tally::new();
    for _ in 0..400 {
        let plan = sample(&mut random);
        let plan = if random.below(4) == 0 { short_sample(&mut random, &plan).unwrap_or(plan) } else { plan };
        for form in FORMS {
            let good = given(&mut random, &plan, form);
            for _ in 0..6 {
                let once = damaged(&mut random, &good);
                compare(&once, Lending::AnyOne, &mut tally);
                compare(&damaged(&mut random, &once), Lending::AnyOne, &mut tally);
            }
        }
    }
    FORMS.iter().for_each(|&form| tally.assert_reached(form, &ANSWERS));
}

#[test]
fn plans_with_a_zero_or_repeated_column_are_refused_under_7_in_every_form() {
    let mut random = Random::new(0x6a09_e667_f3bc_c908);
    let mut tally = Tally::new();
    for _ in 0..300 {
        let plan = sample(&mut random);
        let Some(short) = short_sample(&mut random, &plan) else { continue };
        for form in FORMS {
            let given = given(&mut random, &short, form);
            assert_eq!(accepted(&given).err(), Some(7), "{given:?}");
            compare(&given, Lending::Every, &mut tally);
        }
    }
    FORMS.iter().for_each(|&form| tally.assert_reached(form, &[7]));
}

#[test]
fn random_lists_of_numbers_are_answered_as_defined() {
    let mut random = Random::new(0x2545_f491_4f6c_dd1d);
    let mut tally = Tally::new();
    for _ in 0..3000 {
        let n = random.between(1, 16);
        let g = random.between(n.saturating_sub(7), n - 1);
        let words: Vec<u32> = (0..g).map(|_| random.below(1 << n) as u32).collect();
        let signs = [any_signs(&mut random, g), random.below(1 << 16) as u32][random.below(4) / 3];
        compare(&Given::words(n, g, &words, signs), Lending::AnyOne, &mut tally);
        let columns: Vec<u32> = (0..n).map(|_| random.below(1 << (n - g)) as u32).collect();
        let mask = [any_mask(&mut random, &columns), random.below(1 << 16) as u32][random.below(4) / 3];
        compare(&Given::columns(n, g, &columns, mask), Lending::AnyOne, &mut tally);
        let runs: Vec<u32> = (0..1 << (n - g)).map(|_| random.below(1 << n) as u32).collect();
        compare(&Given::runs(n, g, &runs), Lending::AnyOne, &mut tally);
    }
    tally.assert_reached(Form::Words, &[0, 5, 6, 7]);
    tally.assert_reached(Form::Columns, &[0, 5, 6, 7]);
    tally.assert_reached(Form::Runs, &[6]);
}

#[test]
fn the_three_forms_of_a_plan_have_one_pattern_resolution_and_distance_counts() {
    let mut random = Random::new(0x1234_5678_9abc_def1);
    for _ in 0..300 {
        let plan = sample(&mut random);
        for (question, places) in [(Question::Pattern, plan.n), (Question::Resolution, 1), (Question::Distances, plan.n + 1)] {
            let found = FORMS.map(|form| {
                let given = given(&mut random, &plan, form);
                answered(&given, question, places)
            });
            assert!(found[0] == found[1] && found[1] == found[2], "{question:?} n {} columns {:?}: {found:?}", plan.n, plan.columns);
        }
    }
}

#[test]
fn patterns_sum_to_2_to_the_g_less_1_and_distance_counts_to_the_runs() {
    let mut random = Random::new(0xfeed_beef_0123_4567);
    for _ in 0..300 {
        let plan = sample(&mut random);
        for form in FORMS {
            let given = given(&mut random, &plan, form);
            let words: u32 = answered(&given, Question::Pattern, plan.n).iter().sum();
            assert_eq!(words, (1 << given.g) - 1, "sum of the pattern of {given:?}");
            let runs: u32 = answered(&given, Question::Distances, plan.n + 1).iter().sum();
            assert_eq!(runs, 1 << plan.m, "sum of the distance counts of {given:?}");
        }
    }
}

#[test]
fn words_to_columns_to_words_gives_the_reduced_list_with_its_signs_of_the_same_set_of_runs() {
    let mut random = Random::new(0x0bad_cafe_0bad_cafe);
    for _ in 0..300 {
        let plan = sample(&mut random);
        let words = given(&mut random, &plan, Form::Words);
        let columns = by_columns(&words);
        let back = by_words(&columns);
        let known = expected(&words);
        assert_eq!((back.list.clone(), back.signs), (known.answer(Question::Words), known.signs()), "from {words:?} by {columns:?}");
        assert_eq!((runs(&columns), runs(&back)), (runs(&words), runs(&words)), "from {words:?} by {columns:?}");
        assert_eq!(by_columns(&back), columns, "from {words:?} by {back:?}");
    }
}

#[test]
fn columns_to_words_to_columns_gives_the_standard_columns_and_the_mask_of_the_same_set_of_runs() {
    let mut random = Random::new(0x5eed_5eed_5eed_5eed);
    for _ in 0..300 {
        let plan = sample(&mut random);
        let columns = given(&mut random, &plan, Form::Columns);
        let words = by_words(&columns);
        let back = by_columns(&words);
        let known = expected(&columns);
        assert_eq!(back.list, plan_bytes(&known.standard(), known.mask()), "from {columns:?} by {words:?}");
        assert_eq!((runs(&words), runs(&back)), (runs(&columns), runs(&columns)), "from {columns:?} by {words:?}");
    }
}

#[test]
fn columns_to_runs_to_columns_gives_the_standard_columns_and_the_mask_of_the_same_set_of_runs() {
    let mut random = Random::new(0x7777_1111_7777_1111);
    for _ in 0..300 {
        let plan = sample(&mut random);
        let columns = given(&mut random, &plan, Form::Columns);
        let table = by_runs(&columns);
        let back = by_columns(&table);
        let known = expected(&columns);
        assert_eq!(back.list, plan_bytes(&known.standard(), known.mask()), "from {columns:?} by {table:?}");
        assert_eq!((runs(&table), runs(&back)), (runs(&columns), runs(&columns)), "from {columns:?} by {table:?}");
    }
}

#[test]
fn runs_to_columns_to_runs_gives_the_same_set_of_runs() {
    let mut random = Random::new(0x3141_5926_5358_9793);
    for _ in 0..300 {
        let plan = sample(&mut random);
        let table = given(&mut random, &plan, Form::Runs);
        let columns = by_columns(&table);
        let back = by_runs(&columns);
        assert_eq!(runs(&back), table.list.iter().copied().collect(), "from {table:?} by {columns:?}");
    }
}

#[test]
fn words_to_runs_gives_the_runs_of_the_words_standard_columns() {
    let mut random = Random::new(0x2718_2818_2845_9045);
    for _ in 0..300 {
        let plan = sample(&mut random);
        let words = given(&mut random, &plan, Form::Words);
        let table = by_runs(&words);
        assert_eq!(table, by_runs(&by_columns(&words)), "from {words:?}");
        assert_eq!(runs(&table), runs(&words), "from {words:?}");
    }
}
