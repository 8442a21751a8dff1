//! The checking program itself, held against examples worked out in the papers and against a formula of document 003.

use plan_tests::check::bits::{has, odd};
use plan_tests::check::columns::{last_letters, rank_is, standard, total};
use plan_tests::check::measures::{distances, pattern, resolution};
use plan_tests::check::plan::{plan_bytes, Form, Given, Plan, Question};
use plan_tests::check::reading::{judge, Header};
use plan_tests::check::refusals::{accepted, accepted_bytes};
use plan_tests::check::runs::{plan_of_words, regular, runs_of_columns, switched_runs};
use plan_tests::check::words::{independent, is_last_letter, is_word, reduced, words_of};
use plan_tests::random::Random;
use plan_tests::samples::{given, sample};
use std::collections::BTreeSet;

/// The set of factors that a word of letters A to Q, without I, names.
fn word(text: &str) -> u32 {
    text.chars().map(|letter| 1 << "ABCDEFGHJKLMNOPQ".find(letter).expect("a factor's letter")).sum()
}

/// The pattern of the plan that the words generate, by its runs.
fn pattern_of(n: usize, words: &[&str]) -> Vec<u32> {
    let words: Vec<u32> = words.iter().map(|text| word(text)).collect();
    pattern(n, &words_of(n, &plan_of_words(n, &words, 0)))
}

#[test]
fn patterns_worked_out_in_document_000_are_found() {
    assert_eq!(pattern_of(7, &["ABCF", "BCDEG"]), [0, 0, 0, 1, 2, 0, 0], "page 5, d1");
    assert_eq!(pattern_of(7, &["ABCF", "ADEG"]), [0, 0, 0, 2, 0, 1, 0], "page 5, d2");
    assert_eq!(pattern_of(5, &["ABD", "ACE"]), [0, 0, 2, 1, 0], "section 2.2.1, first");
    assert_eq!(pattern_of(5, &["ABD", "ABCE"]), [0, 0, 2, 1, 0], "section 2.2.1, second");
    assert_eq!(pattern_of(7, &["ABE", "ABDF", "BDCG"]), [0, 0, 2, 3, 2, 0, 0], "section 2.2.1, d1");
    assert_eq!(pattern_of(7, &["ABE", "ACF", "ABCG"]), [0, 0, 4, 3, 0, 0, 0], "section 3.1");
}

#[test]
fn the_definition_decides_where_document_000s_section_2_2_1_prints_another_pattern_for_d2() {
    // printed as 0 0 2 3 2; but ACE times ACDF is DEF, and ACDF times ABCDG is BFG
    assert_eq!(pattern_of(7, &["ACE", "ACDF", "ABCDG"]), [0, 0, 3, 2, 1, 1, 0]);
}

#[test]
fn three_runs_of_four_that_do_not_close_are_not_regular() {
    assert!(regular(&[0, 5, 6, 3]), "the runs of columns 1 2 3");
    assert!(regular(&[1, 4, 7, 2]), "the same with A switched");
    assert!(!regular(&[0, 5, 6, 7]), "0 5 6 need 3");
}

#[test]
fn rank_counts_what_columns_reach() {
    assert!(rank_is(3, &[3, 5, 1]), "3, 5 and 1 are independent");
    assert!(!rank_is(3, &[3, 5, 6]), "3, 5 and 6 cancel");
    assert!(!rank_is(2, &[0, 1, 1]), "nothing reaches 2");
}

#[test]
fn dependence_of_words_is_seen_in_products() {
    assert!(independent(&[7, 25]), "ABC and ADE");
    assert!(!independent(&[7, 25, 30]), "ABC times ADE is BCDE");
    assert!(!independent(&[7, 0]), "an empty word");
}

#[test]
fn a_word_is_a_set_whose_product_of_signs_is_constant_of_either_sign() {
    let runs = [1, 4, 7, 2];
    assert!(is_word(&runs, word("ABC")), "an odd number of low levels in every run");
    assert!(!is_word(&runs, word("AB")), "not constant");
    assert!(!is_word(&runs, 0), "the empty set is no word");
}

/// The number of ways to choose k of n.
fn choose(n: i64, k: i64) -> i64 {
    if k > n {
        return 0;
    }
    (0..k).fold(1, |ways, i| ways * (n - i) / (i + 1))
}

/// Document 003's wordlength pattern of distance counts (definitions 2 and 3, two levels), lengths 1 to n.
fn pattern_from_distances(n: usize, counts: &[u32]) -> Vec<u32> {
    let n = n as i64;
    let runs: i64 = counts.iter().map(|&count| count as i64).sum();
    let krawtchouk = |j: i64, x: i64| (0..=j).map(|i| if i % 2 == 0 { 1 } else { -1 } * choose(x, i) * choose(n - x, j - i)).sum::<i64>();
    let transformed = |j: i64| counts.iter().enumerate().map(|(i, &count)| count as i64 * krawtchouk(j, i as i64)).sum::<i64>();
    (1..=n).map(|j| u32::try_from(transformed(j) / runs).expect("a count")).collect()
}

#[test]
fn pattern_by_words_is_document_003s_transform_of_the_distance_counts() {
    let mut random = Random::new(3);
    for _ in 0..200 {
        let plan = sample(&mut random);
        let runs = runs_of_columns(plan.m, &plan.columns);
        let words = words_of(plan.n, &runs);
        let transformed = pattern_from_distances(plan.n, &distances(plan.n, &runs));
        assert_eq!(pattern(plan.n, &words), transformed, "n {} columns {:?}", plan.n, plan.columns);
    }
}

#[test]
fn standard_columns_and_reduced_words_give_the_plan_back() {
    let mut random = Random::new(4);
    for _ in 0..200 {
        let plan = sample(&mut random);
        let words = words_of(plan.n, &runs_of_columns(plan.m, &plan.columns));
        let columns = standard(plan.n, &words);
        let list = reduced(plan.n, &words);
        let cancelling: Vec<u32> = (1..1 << plan.n).filter(|&set| total(&columns, set) == 0).collect();
        assert_eq!(cancelling, words, "sets whose standard columns {columns:?} cancel");
        let mut runs = runs_of_columns(plan.m, &columns);
        runs.sort();
        assert_eq!(runs, plan_of_words(plan.n, &list, 0), "runs of standard columns {columns:?} and of reduced words {list:?}");
    }
}

#[test]
fn generated_plans_meet_every_generator_by_its_sign() {
    let mut random = Random::new(5);
    for _ in 0..200 {
        let plan = sample(&mut random);
        let list = given(&mut random, &plan, Form::Words);
        let generated = Plan::new(&list);
        assert_eq!(generated.runs.len(), 1 << plan.m, "runs of {list:?}");
        assert_eq!(generated.words.len(), (1 << list.g) - 1, "words of {list:?}");
        for (i, &word) in list.list.iter().enumerate() {
            assert!(generated.runs.iter().all(|&run| odd(run, word) == has(list.signs, i)), "word {i} of {list:?}");
        }
        assert!(list.signs != 0 || generated.words.iter().all(|&word| generated.runs.iter().all(|&run| !odd(run, word))), "{list:?}");
    }
}

/// Request 5: every regular plan's set of runs is that of exactly one record in standard columns with a mask that is zero at every factor that is
/// the last letter of no word. All masks are tried.
#[test]
fn exactly_one_mask_of_last_letters_turns_the_runs_of_standard_columns_into_a_plan() {
    let mut random = Random::new(0x55);
    let small = std::iter::repeat_with(|| sample(&mut random)).filter(|plan| plan.n <= 9).take(60).collect::<Vec<_>>();
    for plan in small {
        let table = Plan::new(&given(&mut random, &plan, Form::Runs));
        let columns = table.standard();
        let set: BTreeSet<u32> = table.runs.iter().copied().collect();
        let allowed = last_letters(&columns);
        let masks: Vec<u32> = (0..1 << plan.n)
            .filter(|mask| mask & !allowed == 0)
            .filter(|&mask| switched_runs(plan.m, &columns, mask).into_iter().collect::<BTreeSet<_>>() == set)
            .collect();
        assert_eq!(masks, [table.mask()], "{:?} of columns {columns:?}", table.runs);
    }
}

#[test]
fn the_last_letters_of_words_are_the_factors_whose_column_those_before_span() {
    let mut random = Random::new(0x56);
    for _ in 0..300 {
        let n = random.between(1, 10);
        let m = random.between(1, 7);
        let columns: Vec<u32> = (0..n).map(|_| random.below(1 << m) as u32).collect();
        let cancelling: Vec<u32> = (1..1 << n).filter(|&set| total(&columns, set) == 0).collect();
        let lasts: u32 = (0..n).filter(|&f| is_last_letter(&cancelling, f)).map(|f| 1 << f).sum();
        assert_eq!(last_letters(&columns), lasts, "{columns:?}");
    }
}

#[test]
fn signs_are_those_of_the_reduced_words_and_not_of_the_given_ones() {
    // ABDE minus and CDE: their product ABC is minus, and of the reduced words ABC and CDE the first
    let plan = Plan::new(&Given::words(5, 2, &[word("ABDE"), word("CDE")], 0b01));
    assert_eq!((plan.answer(Question::Words), plan.signs()), (vec![word("ABC"), word("ABDE")], 0b11));
    let plan = Plan::new(&Given::words(3, 1, &[word("ABC")], 1));
    assert_eq!(plan.runs, [1, 2, 4, 7]);
    assert_eq!((plan.standard(), plan.mask()), (vec![1, 2, 3], 0b100));
    assert_eq!(plan.answer(Question::Runs), [4, 1, 2, 7]);
}

#[test]
fn a_full_factorial_of_n_factors_has_resolution_n_plus_1_and_no_words() {
    let plan = Plan::new(&Given::words(3, 0, &[], 0));
    assert_eq!(plan.answer(Question::Columns), [1, 2, 4, 0, 0]);
    assert_eq!(plan.answer(Question::Pattern), [0, 0, 0]);
    assert_eq!(plan.answer(Question::Resolution), [4]);
    assert_eq!(resolution(1, &[]), 2);
}

#[test]
fn refusals_of_document_01s_table_are_found() {
    let of_words = |n, g, words: &[u32], signs| accepted(&Given::words(n, g, words, signs)).err().unwrap_or(0);
    assert_eq!(of_words(17, 1, &[7], 0), 1);
    assert_eq!(of_words(9, 1, &[7], 0), 2);
    assert_eq!(of_words(5, 1, &[7, 25], 0), 4);
    assert_eq!(of_words(3, 1, &[8], 0), 5);
    assert_eq!(of_words(4, 2, &[7, 7], 0), 6);
    assert_eq!(of_words(3, 1, &[3], 0), 7);
    assert_eq!(of_words(4, 1, &[0], 0), 6, "a zero word");
    let of_columns = |n, g, columns: &[u32], mask| accepted(&Given::columns(n, g, columns, mask)).err().unwrap_or(0);
    assert_eq!(of_columns(3, 1, &[1, 2, 0], 0), 7, "a zero column");
    assert_eq!(of_columns(3, 1, &[1, 2, 2], 0), 7, "a repeated column");
    assert_eq!(of_columns(3, 1, &[1, 1, 0], 0), 6, "rank comes first");
}

#[test]
fn refusals_of_document_02s_request_5_are_found() {
    let of_words = |n, g, words: &[u32], signs| accepted(&Given::words(n, g, words, signs)).err().unwrap_or(0);
    assert_eq!(of_words(5, 2, &[7, 28], 0b11), 0);
    assert_eq!(of_words(5, 2, &[7, 28], 0b100), 5, "a sign of no word");
    assert_eq!(of_words(4, 2, &[7, 7], 0b100), 5, "before dependent words");
    let of_bytes = |n, g, bytes: &[u32]| accepted_bytes(n, g, bytes).err().unwrap_or(0);
    assert_eq!(of_bytes(3, 1, &[1, 2, 3]), 4, "no mask");
    assert_eq!(of_bytes(3, 1, &[1, 2, 3, 1, 0]), 5, "A is the last letter of no word");
    assert_eq!(of_bytes(3, 1, &[1, 2, 3, 4, 0]), 0, "C is that of ABC");
    assert_eq!(of_bytes(3, 1, &[1, 2, 3, 8, 0]), 5, "past C");
    assert_eq!(of_bytes(3, 1, &[1, 2, 3, 0, 1]), 5, "past C");
    assert_eq!(of_bytes(4, 1, &plan_bytes(&[1, 2, 1, 2], 8)), 6, "D is the last letter of BD; the rank is 2");
    assert_eq!(of_bytes(4, 1, &plan_bytes(&[1, 2, 1, 2], 1)), 5, "A is that of none, whatever the rank");
    assert_eq!(of_bytes(3, 1, &plan_bytes(&[1, 2, 0], 4)), 7, "a zero column is a word");
}

#[test]
fn books_are_read_or_refused_by_document_02s_first_request() {
    let two = [[0x01, 4, 1, 3, 2, 0].as_slice(), &[0x24, 1, 2, 3, 4, 0x44, 1, 0, 0, 0], &[0x24, 1, 2, 4, 7, 0x44, 0, 0, 1, 0]].concat();
    let entries = [vec![1, 2, 3, 4], vec![1, 2, 4, 7]];
    assert_eq!(judge(&two).read(12), Ok((Header { n: 4, g: 1, r: 3, count: 2 }, &entries[..])));
    assert_eq!(judge(&[0x01, 4, 2, 3, 0, 0]).read(0), Ok((Header { n: 4, g: 2, r: 3, count: 0 }, &[][..])));
    let number = |book: &[u8]| judge(book).read(12).err();
    assert_eq!(judge(&two).read(11).err(), Some(8), "room for one entry");
    assert_eq!(number(&[]), Some(10), "a missing kind byte");
    assert_eq!(number(&[0x02]), Some(11), "a header's kind comes before its length");
    assert_eq!(number(&[0x01, 17, 1, 3, 0]), Some(10), "its length comes before its sizes");
    assert_eq!(number(&[0x01, 17, 1, 3, 0, 0]), Some(1));
    assert_eq!(number(&[0x01, 4, 1, 3, 1, 0, 0x25, 2]), Some(11));
    assert_eq!(number(&[&two[..3], &[4], &two[4..]].concat()), Some(12), "a word of three for R 4");
    assert_eq!(number(&[&two[..16], &two[6..16]].concat()), Some(12), "an entry twice");
    assert_eq!(number(&[&two[..], &[0]].concat()), Some(10), "a byte left over");
}
