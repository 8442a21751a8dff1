//! Request 5: words with a minus sign, the switch mask of a record, and what of it goes in and out as the bytes of a plan.

use plan_tests::books::{compare_refused, joined};
use plan_tests::calls::{call, questions};
use plan_tests::catalogues::every_smallest_form;
use plan_tests::check::columns::last_letters;
use plan_tests::check::plan::{columns_and_mask, plan_bytes, stride, Form, Given, Plan, Question};
use plan_tests::check::refusals::accepted;
use plan_tests::check::runs::{plan_of_words, switched_runs};
use plan_tests::compare::{compare, Lending, Tally};
use plan_tests::compare_pairs::{compare_any, compare_pair, Counts, Expected};
use plan_tests::forms::{compare_bytes, compare_plans, compare_sought, form_of, Sought};
use plan_tests::guarded::*;
use plan_tests::known::every_plan;
use plan_tests::pairs::Pair;
use plan_tests::random::Random;
use plan_tests::reading::compare_taken;
use plan_tests::samples::{any_mask, columns, generators, sample, short_sample, Sample};
use planner::{Signs, PLAN_DIFFERENT};
use std::collections::{BTreeMap, BTreeSet};

const FORMS: [Form; 3] = [Form::Words, Form::Columns, Form::Runs];

/// P and Q of document 01, by words.
const P: [u32; 3] = [0b1111, 0b111100, 0b111010101];
const Q: [u32; 3] = [0b1111, 0b1110001, 0b110010010];

/// The bytes that a call gives. Fails unless it accepts.
fn bytes_of(given: &Given) -> Vec<u32> {
    let found = call(given, Question::Columns, stride(given.n));
    assert_eq!(found.answer, 0, "{given:?}");
    found.result(stride(given.n))
}

/// The runs that a call gives.
fn runs_of(given: &Given) -> Vec<u32> {
    let count = 1 << (given.n - given.g);
    let found = call(given, Question::Runs, count);
    assert_eq!(found.answer, 0, "{given:?}");
    found.result(count)
}

/// The number under which each call on the list refuses it.
fn numbers(given: &Given) -> BTreeSet<u8> {
    questions(given.form).iter().map(|&question| call(given, question, 200).answer).collect()
}

fn given_bytes(n: usize, g: usize, bytes: &[u32]) -> Given {
    Given { n, g, form: Form::Columns, list: bytes.to_vec(), signs: 0 }
}

#[test]
fn abc_with_minus_has_columns_1_2_3_mask_4_and_runs_4_1_2_7() {
    let words = Given::words(3, 1, &[7], 1);
    assert_eq!(bytes_of(&words), [1, 2, 3, 4, 0]);
    assert_eq!(runs_of(&words), [4, 1, 2, 7]);
    let plan = Given::columns(3, 1, &[1, 2, 3], 4);
    assert_eq!(runs_of(&plan), [4, 1, 2, 7]);
    let mut back = [99; 2];
    assert_eq!(plan_words_of_columns(3, 1, &[1, 2, 3, 4, 0], &mut back), Signs { number: 0, signs: 1 });
    assert_eq!(back, [7, 99]);
}

#[test]
fn abde_and_cde_have_mask_20_or_4_by_which_of_them_is_minus() {
    assert_eq!(bytes_of(&Given::words(5, 2, &[27, 28], 1)), plan_bytes(&[1, 2, 3, 4, 7], 20));
    assert_eq!(bytes_of(&Given::words(5, 2, &[27, 28], 2)), plan_bytes(&[1, 2, 3, 4, 7], 4));
    assert_eq!(bytes_of(&Given::words(5, 2, &[27, 28], 0)), plan_bytes(&[1, 2, 3, 4, 7], 0));
    assert_eq!(numbers(&Given::words(5, 2, &[7, 28], 4)), [5].into());
}

#[test]
fn the_run_table_7_1_2_4_has_columns_1_2_3_and_mask_4() {
    assert_eq!(bytes_of(&Given::runs(3, 1, &[7, 1, 2, 4])), [1, 2, 3, 4, 0]);
}

#[test]
fn three_bytes_of_3_1_are_refused_under_4_and_a_switch_of_a_under_5() {
    assert_eq!(numbers(&given_bytes(3, 1, &[1, 2, 3])), [4].into());
    assert_eq!(numbers(&given_bytes(3, 1, &[1, 2, 3, 4])), [4].into());
    assert_eq!(numbers(&given_bytes(3, 1, &[1, 2, 3, 4, 0, 0])), [4].into());
    assert_eq!(numbers(&given_bytes(3, 1, &[1, 2, 3, 1, 0])), [5].into());
}

#[test]
fn whether_a_factor_may_be_switched_is_judged_by_the_columns_alone_before_6_and_7() {
    assert_eq!(numbers(&Given::columns(4, 1, &[1, 2, 1, 2], 8)), [6].into());
    assert_eq!(numbers(&Given::columns(4, 1, &[1, 2, 1, 2], 1)), [5].into());
    assert_eq!(numbers(&Given::columns(4, 1, &[1, 2, 4, 0], 8)), [7].into());
    assert_eq!(numbers(&Given::columns(4, 1, &[1, 2, 4, 0], 4)), [5].into());
    assert_eq!(numbers(&Given::columns(4, 1, &[0, 1, 2, 4], 1)), [7].into(), "0 is the exclusive-or of no columns");
    assert_eq!(numbers(&Given::columns(4, 1, &[0, 1, 2, 4], 2)), [5].into());
    assert_eq!(numbers(&Given::columns(4, 1, &[1, 2, 1, 2], 16)), [5].into(), "past D");
}

#[test]
fn p_and_q_with_every_choice_of_signs_are_the_same_as_themselves_without_and_different_from_each_other() {
    let mut counts = Counts::default();
    let with_signs = |words: &[u32]| (0..8).map(|signs| bytes_of(&Given::words(9, 3, words, signs))).collect::<Vec<_>>();
    let (p, q) = (with_signs(&P), with_signs(&Q));
    for plans in [&p, &q] {
        assert_eq!(plans.iter().collect::<BTreeSet<_>>().len(), 8, "each choice has a record of its own");
        let form = form_of(&Sought { n: 9, g: 3, form: Form::Columns, plan: plans[0].clone(), among: Vec::new() });
        for first in plans {
            for second in plans {
                let pair = Pair { n: 9, g: 3, form: Form::Columns, first: first.clone(), second: second.clone() };
                compare_pair(&pair, Expected::Same, 9, &mut counts);
            }
            let among = [first.clone(), plan_bytes(&form, 0)].concat();
            let sought = Sought { n: 9, g: 3, form: Form::Columns, plan: first.clone(), among };
            let place = if *first == plan_bytes(&form, 0) { 1 } else { 2 };
            assert_eq!(compare_sought(&sought, &form, (11, 9)).place, place, "{first:?}");
        }
        assert_eq!(compare_plans(9, 3, &plans.concat(), (88, 88)), 0);
    }
    for (first, second) in p.iter().flat_map(|first| q.iter().map(move |second| (first, second))) {
        let pair = Pair { n: 9, g: 3, form: Form::Columns, first: first.clone(), second: second.clone() };
        compare_pair(&pair, Expected::Different(0), 9, &mut counts);
        let [first, second] = [first, second].map(|bytes| bytes.iter().map(|&byte| byte as u8).collect::<Vec<u8>>());
        assert_eq!(plan_compare_columns(9, 3, &first, &second, &mut [0; 9]), PLAN_DIFFERENT);
    }
    assert_eq!((counts.same, counts.alike), (128, 64), "{counts:?}");
}

/// The words of every plan of up to so many factors, each plan once: N, G and the reduced words.
fn every_list_of_words(most: usize) -> Vec<(usize, usize, Vec<u32>)> {
    let sizes = (1..=most).flat_map(|n| (1..=n.min(7)).map(move |m| (n, m)));
    let words =
        |(n, m, columns): (usize, usize, Vec<u32>)| (n, n - m, Plan::new(&Given::columns(n, n - m, &columns, 0)).answer(Question::Words));
    sizes.flat_map(|(n, m)| every_plan(n, m).into_iter().map(move |columns| (n, m, columns))).map(words).collect()
}

#[test]
fn the_run_with_everything_high_is_in_no_plan_that_has_a_word_with_minus() {
    let mut random = Random::new(0x501d);
    let large = (0..100).map(|_| sample(&mut random)).collect::<Vec<Sample>>();
    let large = large.iter().map(|plan| (plan.n, plan.n - plan.m, generators(&mut random, plan))).collect::<Vec<_>>();
    let mut seen = 0;
    for (n, g, words) in every_list_of_words(6).into_iter().chain(large) {
        for signs in 0..1 << g.min(4) {
            let runs = runs_of(&Given::words(n, g, &words, signs));
            assert_eq!(runs.contains(&0), signs == 0, "n {n}, words {words:?}, signs {signs:#b}");
            seen += usize::from(signs != 0);
        }
    }
    assert!(seen > 500, "{seen} plans with a minus");
}

/// A plan's record in standard columns is a normal form of its set of runs: one record to each set, and one set to each record.
#[test]
fn each_set_of_runs_of_up_to_6_factors_has_one_record_and_each_record_one_set() {
    let (mut sets, mut records) = (BTreeMap::new(), BTreeSet::new());
    for (n, g, words) in every_list_of_words(6) {
        for signs in 0..1 << g {
            let bytes = bytes_of(&Given::words(n, g, &words, signs));
            let mut runs = runs_of(&given_bytes(n, g, &bytes));
            runs.sort();
            assert_eq!(runs, plan_of_words(n, &words, signs), "n {n}, words {words:?}, signs {signs:#b}");
            assert_eq!(bytes_of(&Given::runs(n, g, &runs)), bytes, "n {n}, runs {runs:?}");
            let plan = given_bytes(n, g, &bytes);
            let back = call(&plan, Question::Words, g);
            assert_eq!((back.answer, back.result(g), back.signs), (0, words.clone(), signs), "n {n}, bytes {bytes:?}");
            assert!(records.insert((n, g, bytes.clone())) && sets.insert((n, g, runs), bytes).is_none(), "n {n}, words {words:?}");
        }
    }
    assert!(sets.len() == records.len() && sets.len() > 300, "{} sets of runs", sets.len());
}

/// Every list of generators of a plan, with any signs, gives the reduced list with its signs of the same set of runs.
#[test]
fn all_generators_of_plans_of_up_to_6_factors_with_all_signs_lead_there_and_back() {
    let mut compared = 0;
    for (n, g, reduced) in every_list_of_words(6) {
        let all = Plan::new(&Given::words(n, g, &reduced, 0)).words;
        let count = all.len();
        for code in 0..count.pow(g as u32) {
            let words: Vec<u32> = (0..g).map(|i| all[code / count.pow(i as u32) % count]).collect();
            for signs in 0..1 << g {
                let given = Given::words(n, g, &words, signs);
                let Ok(plan) = accepted(&given) else { continue };
                let bytes = bytes_of(&given);
                let back = call(&given_bytes(n, g, &bytes), Question::Words, g);
                assert_eq!((back.result(g), back.signs), (reduced.clone(), plan.signs()), "{given:?} by {bytes:?}");
                let same = plan_of_words(n, &reduced, back.signs) == plan_of_words(n, &words, signs);
                assert!(same, "{given:?} by {bytes:?} and {reduced:?} with {:#b}", back.signs);
                compared += 1;
            }
        }
    }
    assert!(compared > 5_000, "{compared}");
}

#[test]
fn signs_and_switches_change_no_pattern_resolution_or_distance_count() {
    let mut random = Random::new(0x0517);
    for _ in 0..200 {
        let Sample { n, m, columns } = sample(&mut random);
        let (g, plan) = (n - m, Sample { n, m, columns: columns.clone() });
        let words = generators(&mut random, &plan);
        let switches = random.below(1 << n) as u32;
        let lists = [
            Given::words(n, g, &words, 0),
            Given::words(n, g, &words, (1 << g) - 1),
            Given::words(n, g, &words, random.below(1 << g) as u32),
            Given::columns(n, g, &columns, 0),
            Given::columns(n, g, &columns, last_letters(&columns)),
            Given::columns(n, g, &columns, any_mask(&mut random, &columns)),
            Given::runs(n, g, &switched_runs(m, &columns, switches)),
        ];
        for (question, places) in [(Question::Pattern, n), (Question::Resolution, 1), (Question::Distances, n + 1)] {
            let found: BTreeSet<_> =
                lists.iter().map(|list| (call(list, question, places).answer, call(list, question, places).result(places))).collect();
            assert_eq!(found.len(), 1, "{question:?} of {lists:?}: {found:?}");
        }
    }
}

#[test]
fn every_sign_bit_from_bit_g_up_is_refused_under_5_before_6_and_7() {
    let mut random = Random::new(0x0605);
    for (n, g) in (1..=16usize).flat_map(|n| (n.saturating_sub(7)..n).map(move |g| (n, g))) {
        let any: Vec<u32> = (0..g).map(|_| random.below(1 << n) as u32).collect();
        let low = vec![1; g];
        for bit in g..16 {
            for words in [&any, &low] {
                let signs = 1 << bit | random.below(1 << g) as u32;
                assert_eq!(numbers(&Given::words(n, g, words, signs)), [5].into(), "n {n}, words {words:?}, signs {signs:#x}");
            }
        }
        assert_eq!(numbers(&Given::words(n, g, &vec![1; g + 1], 0xffff)), [4].into(), "n {n}, {g} words");
    }
}

/// Plans in order, of low rank and with short words, with each bit of a mask: every call that takes a plan's bytes, also within a list.
#[test]
fn every_mask_bit_is_taken_or_refused_under_5_by_every_call_on_bytes() {
    let mut random = Random::new(0x3a5c);
    let (mut tally, mut counts, mut barred) = (Tally::new(), Counts::default(), 0);
    for turn in 0..60 {
        let plan = sample(&mut random);
        let plan = if turn % 3 == 0 { short_sample(&mut random, &plan).unwrap_or(plan) } else { plan };
        let &Sample { n, m, ref columns } = &plan;
        let mut columns = columns.clone();
        if turn % 3 == 1 {
            columns.iter_mut().for_each(|column| *column &= !1);
        }
        let good = plan_bytes(&self::columns(&mut random, n, m), 0);
        for bit in 0..16 {
            let mask = 1 << bit | any_mask(&mut random, &columns);
            let bytes = plan_bytes(&columns, mask);
            let refused = mask & !last_letters(&columns) != 0;
            barred += usize::from(refused);
            let given = given_bytes(n, n - m, &bytes);
            assert_eq!(accepted(&given).err() == Some(5), refused, "{given:?}");
            compare(&given, Lending::AnyOne, &mut tally);
            for (first, second) in [(&bytes, &good), (&good, &bytes), (&bytes, &bytes)] {
                compare_any(&Pair { n, g: n - m, form: Form::Columns, first: first.clone(), second: second.clone() }, n, &mut counts);
            }
            compare_bytes(n, n - m, &bytes, (stride(n), n));
            let sought = Sought { n, g: n - m, form: Form::Columns, plan: good.clone(), among: [&good[..], &bytes].concat() };
            compare_sought(&sought, &form_of(&sought), (stride(n), n));
            compare_plans(n, n - m, &[&good[..], &bytes].concat(), (2 * stride(n), 2 * stride(n)));
            let for_book: Vec<u8> = [&good[..], &bytes].concat().iter().map(|&byte| byte as u8).collect();
            compare_refused(n, n - m, 3, &for_book, 1_000, 5);
        }
    }
    tally.assert_reached(Form::Columns, &[0, 5, 6, 7]);
    assert!(barred > 100 && counts.same > 100 && counts.refused[5] > 100, "{barred} barred, {counts:?}");
}

#[test]
fn two_records_of_every_plan_of_up_to_6_factors_are_the_same_with_every_two_masks() {
    let mut counts = Counts::default();
    for (n, m) in (1..=6).flat_map(|n| (1..=n).map(move |m| (n, m))) {
        for columns in every_plan(n, m) {
            let allowed = last_letters(&columns);
            let masks: Vec<u32> = (0..1 << n).filter(|mask| mask & !allowed == 0).collect();
            assert_eq!(masks.len(), 1 << (n - m));
            for pair in masks.iter().flat_map(|&first| masks.iter().map(move |&second| [first, second])) {
                let [first, second] = pair.map(|mask| plan_bytes(&columns, mask));
                compare_pair(&Pair { n, g: n - m, form: Form::Columns, first, second }, Expected::Same, n, &mut counts);
            }
        }
    }
    assert!(counts.same > 500, "{counts:?}");
}

#[test]
fn the_smallest_form_of_every_plan_of_up_to_6_factors_with_every_mask_has_mask_0() {
    for (n, m) in (1..=6).flat_map(|n| (1..=n).map(move |m| (n, m))) {
        for columns in every_plan(n, m) {
            let allowed = last_letters(&columns);
            let plans: Vec<Vec<u32>> = (0..1 << n).filter(|mask| mask & !allowed == 0).map(|mask| plan_bytes(&columns, mask)).collect();
            for plan in &plans {
                assert_eq!(compare_bytes(n, n - m, plan, (stride(n), n)), 0);
                let runs = switched_runs(m, &columns, columns_and_mask(n, plan).1);
                let sought = Sought { n, g: n - m, form: Form::Runs, plan: runs, among: plans.concat() };
                compare_sought(&sought, &form_of(&sought), (stride(n), n));
            }
            let all = plans.concat();
            assert_eq!(compare_plans(n, n - m, &all, (all.len(), all.len())), 0);
        }
    }
}

/// What a catalogue gives goes to the writer of books and to the search as it is, and comes back from the reader.
#[test]
fn the_bytes_of_a_catalogue_are_written_looked_in_and_read_as_they_are() {
    let mut random = Random::new(0xca7a);
    for (n, g) in [(1, 0), (3, 0), (4, 1), (5, 2), (6, 2), (7, 3), (9, 4), (11, 4)] {
        let mut list = vec![0xee; 200_000];
        let found = plan_catalogue(n, g, 3, &mut list);
        assert_eq!(found.number, 0, "{n} {g} 3");
        list.truncate(found.count * stride(n));
        assert!(list.chunks(stride(n)).all(|entry| entry[n..] == [0, 0]), "{n} {g} 3");
        let mut book = vec![0; 100_000];
        let written = plan_write_book(n, g, 3, &list, &mut book);
        assert_eq!(written.number, 0, "{n} {g} 3");
        compare_taken(&book[..written.count], list.len(), [n, g, 3], &list);
        let among: Vec<u32> = list.iter().map(|&byte| byte.into()).collect();
        for _ in 0..20 {
            let columns = columns(&mut random, n, n - g);
            let plan = plan_bytes(&columns, any_mask(&mut random, &columns));
            let sought = Sought { n, g, form: Form::Columns, plan, among: among.clone() };
            assert_ne!(compare_sought(&sought, &form_of(&sought), (stride(n), n)).place, 0, "{sought:?}");
        }
    }
}

/// A plan with any signs is the same as exactly one entry: its smallest form stands once in the catalogue.
#[test]
fn every_signed_plan_of_up_to_6_factors_reaches_one_entry_of_the_catalogue() {
    let mut forms: BTreeMap<(usize, usize), Vec<u32>> = BTreeMap::new();
    for (n, g, words) in every_list_of_words(6) {
        let entries =
            forms.entry((n, g)).or_insert_with(|| joined(&every_smallest_form(n, n - g)).iter().map(|&byte| byte.into()).collect());
        for signs in 0..1 << g {
            let plan = bytes_of(&Given::words(n, g, &words, signs));
            let sought = Sought { n, g, form: Form::Columns, plan, among: entries.clone() };
            let place = compare_sought(&sought, &form_of(&sought), (stride(n), n)).place;
            assert_ne!(place, 0, "{sought:?}");
            let entry = &entries[(place - 1) * stride(n)..place * stride(n)];
            assert_eq!(entries.chunks(stride(n)).filter(|other| *other == entry).count(), 1);
        }
    }
}

/// Words with minus signs go through every form and back to where they came from, at every size.
#[test]
fn every_size_has_the_set_of_runs_of_its_words_in_all_three_forms() {
    let mut random = Random::new(0xf0f0);
    for (n, m) in (1..=7).flat_map(|m| (m..=16.min((1 << m) - 1)).map(move |n| (n, m))) {
        for _ in 0..4 {
            let plan = Sample { n, m, columns: columns(&mut random, n, m) };
            let words = generators(&mut random, &plan);
            let signs = random.below(1 << (n - m)) as u32;
            let given = Given::words(n, n - m, &words, signs);
            let expected: BTreeSet<u32> = plan_of_words(n, &words, signs).into_iter().collect();
            let bytes = given_bytes(n, n - m, &bytes_of(&given));
            let table = Given::runs(n, n - m, &runs_of(&bytes));
            assert_eq!(table.list.iter().copied().collect::<BTreeSet<u32>>(), expected, "{given:?}");
            assert_eq!(bytes_of(&table), bytes.list, "{given:?}");
            for form in FORMS {
                let list = [&given, &bytes, &table].into_iter().find(|list| list.form == form).expect("each form");
                assert_eq!(accepted(list).map(|plan| plan.mask()), Ok(columns_and_mask(n, &bytes.list).1), "{list:?}");
            }
        }
    }
}
