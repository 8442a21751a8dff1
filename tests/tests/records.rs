//! The calls that C cannot make, on design records and with answers by value, through the program `records`.

use plan_tests::check::columns::last_letters;
use plan_tests::check::plan::{Form, Given};
use plan_tests::check::runs::switched_runs;
use plan_tests::check::smallest::smallest;
use plan_tests::known::in_other_basics;
use plan_tests::loads::every_size;
use plan_tests::random::Random;
use plan_tests::record_calls::*;
use plan_tests::samples::{any_mask, columns, damaged, given, sample, short_sample, Sample};
use std::collections::BTreeSet;

/// The calls on a list, with the form of their plan.
const ON_LISTS: [(usize, Form); 6] = [
    (DESIGN_OF_WORDS, Form::Words),
    (DESIGN_OF_RUNS, Form::Runs),
    (RUNS_OF_WORDS, Form::Words),
    (RESOLUTION_OF_WORDS, Form::Words),
    (RESOLUTION_OF_RUNS, Form::Runs),
    (RESOLUTION_OF_COLUMNS, Form::Columns),
];

/// The calls on a record.
const ON_RECORDS: [usize; 5] = [RUNS_OF_DESIGN, WORDS_OF_DESIGN, DISTANCES_OF_DESIGN, COMPARE_DESIGNS, FORM_OF_DESIGN];

/// The largest number that the program reads.
const LARGEST: usize = 65_535;

/// The call on a list, words with their signs. Sizes that the program cannot read become the largest that it can.
fn on_list(which: usize, given: &Given) -> Call {
    Call { which, n: given.n.min(LARGEST), g: given.g.min(LARGEST), k: given.signs as usize, list: given.list.clone() }
}

/// The record of columns with any mask that they allow.
fn any_record(random: &mut Random, m: usize, columns: &[u32]) -> Vec<u32> {
    record(m, columns, any_mask(random, columns))
}

/// The call on a record, compared with `second` where it takes two, with k lent places.
fn on_record(which: usize, (n, g): (usize, usize), k: usize, record: &[u32], second: &[u32]) -> Call {
    let more = match which {
        COMPARE_DESIGNS => second.to_vec(),
        FORM_OF_DESIGN => vec![0],
        _ => Vec::new(),
    };
    Call { which, n, g, k, list: [record.to_vec(), more].concat() }
}

/// The calls on the record of a plan, each with lent lists one place too short, long enough and longer; compared with the plan in another
/// order and other basic factors, and with another plan.
fn on_plan(random: &mut Random, plan: &Sample) -> Vec<Call> {
    let &Sample { n, m, .. } = plan;
    let mut same = in_other_basics(random, m, &plan.columns);
    random.shuffle(&mut same);
    let mut calls = Vec::new();
    for which in ON_RECORDS {
        for k in [0, n - m, n, n + 1, n + 2].into_iter().flat_map(|k| [k, k.saturating_sub(1)]) {
            let second = if random.below(2) == 0 { same.clone() } else { columns(random, n, m) };
            let [first, second] = [&plan.columns, &second].map(|columns| any_record(random, m, columns));
            calls.push(on_record(which, (n, n - m), k, &first, &second));
        }
    }
    calls
}

/// The record of a plan damaged in one way: its sizes, its numbers, its counts, its mask, or a used place past N.
fn damaged_record(random: &mut Random, plan: &Sample) -> ((usize, usize), Vec<u32>) {
    let &Sample { n, m, .. } = plan;
    let mut record = any_record(random, m, &plan.columns);
    match random.below(8) {
        6 => record[RECORD - 1] ^= 1 << random.below(16),
        7 => record[RECORD - 1] = random.below(1 << 16) as u32,
        0 => record[random.below(2)] = random.below(20) as u32,
        1 => record[2 + random.below(16)] ^= 1 << random.below(8),
        2 => record[2 + n.min(15)..].iter_mut().for_each(|place| *place = 1),
        _ => {
            let good = given(random, plan, Form::Columns);
            let mut other = damaged(random, &good);
            other.list.truncate(n);
            other.list.resize(RECORD - 3, 0);
            record[2..RECORD - 1].copy_from_slice(&other.list);
            return ((other.n.min(LARGEST), other.g.min(LARGEST)), record);
        }
    }
    ((n, n - m), record)
}

/// The plan, or one with a word of one or two letters.
fn long_or_short(random: &mut Random) -> Sample {
    let plan = sample(random);
    if random.below(4) == 0 {
        short_sample(random, &plan).unwrap_or(plan)
    } else {
        plan
    }
}

/// Fails unless each of these calls came to each of these refusals.
fn assert_reached(which: &[usize], numbers: &[u32], calls: &[Call], answers: &[Answer]) {
    let reached: BTreeSet<(usize, Answer)> = calls.iter().map(|call| call.which).zip(answers.iter().copied()).collect();
    for &which in which {
        let name = if which == COMPARE_DESIGNS { "refused" } else { "number" };
        for &number in numbers {
            assert!(reached.contains(&(which, (name, number))), "call {which} was never refused under {number}");
        }
    }
}

#[test]
fn the_programs_own_examples_are_answered_as_defined() {
    let input = include_str!("../../crates/records/stdin");
    let calls: Vec<Call> = input.lines().map(Call::read).collect();
    compare_calls(&calls);
    let made: BTreeSet<usize> = calls.iter().map(|call| call.which).collect();
    assert_eq!(made, (DESIGN_OF_WORDS..=LOAD).collect());
}

#[test]
fn random_plans_in_every_form_are_answered_as_defined() {
    let mut random = Random::new(0x2545_f491_4f6c_dd1d);
    let mut calls = Vec::new();
    for _ in 0..150 {
        let plan = sample(&mut random);
        calls.extend(ON_LISTS.map(|(which, form)| on_list(which, &given(&mut random, &plan, form))));
        calls.extend(on_plan(&mut random, &plan));
    }
    let answers = compare_calls(&calls);
    let compared: BTreeSet<&str> =
        calls.iter().zip(&answers).filter(|(call, _)| call.which == COMPARE_DESIGNS).map(|(_, answer)| answer.0).collect();
    assert_eq!(compared, BTreeSet::from(["different", "refused", "same"]));
    assert_reached(&[WORDS_OF_DESIGN, DISTANCES_OF_DESIGN, FORM_OF_DESIGN], &[0, 8], &calls, &answers);
}

#[test]
fn damaged_lists_and_records_are_refused_under_the_lowest_number_and_every_number_is_reached() {
    let mut random = Random::new(0x6c62_272e_07bb_0142);
    let mut calls = Vec::new();
    for _ in 0..300 {
        let plan = long_or_short(&mut random);
        for (which, form) in ON_LISTS {
            let good = given(&mut random, &plan, form);
            let other = if random.below(4) == 0 { good } else { damaged(&mut random, &good) };
            calls.push(on_list(which, &other));
        }
        for which in ON_RECORDS {
            let (sizes, first) = damaged_record(&mut random, &plan);
            let second = match random.below(2) {
                0 => any_record(&mut random, plan.m, &plan.columns),
                _ => damaged_record(&mut random, &plan).1,
            };
            let pair = if random.below(2) == 0 { [first, second] } else { [second, first] };
            calls.push(on_record(which, sizes, random.below(19), &pair[0], &pair[1]));
        }
    }
    let answers = compare_calls(&calls);
    assert_reached(&ON_LISTS.map(|(which, _)| which), &[0, 1, 2, 4, 5, 6, 7], &calls, &answers);
    assert_reached(&ON_RECORDS, &[1, 2, 4, 5, 6, 7], &calls, &answers);
}

/// Every list of n columns of up to m bits.
fn all_lists(n: usize, m: usize) -> impl Iterator<Item = Vec<u32>> {
    (0..1u32 << (n * m)).map(move |code| (0..n).map(|f| code >> (f * m) & ((1 << m) - 1)).collect())
}

#[test]
fn columns_are_an_entry_exactly_if_they_are_in_the_catalogue() {
    let mut calls = Vec::new();
    for (n, m) in [(1, 1), (2, 2), (3, 2), (4, 3), (3, 3)] {
        for r in 2..6 {
            calls.extend(all_lists(n, m).map(|list| Call { which: IS_ENTRY, n, g: n - m, k: r, list }));
        }
    }
    let mut random = Random::new(0x9e37_79b9_7f4a_7c15);
    for _ in 0..150 {
        let Sample { n, m, columns } = sample(&mut random);
        let form = smallest(m, &columns);
        let mut later = form.clone();
        later.swap(0, n - 1);
        for list in [columns, form.clone(), later, form[1..].to_vec()] {
            calls.push(Call { which: IS_ENTRY, n, g: n - m, k: 2 + random.below(6), list });
        }
    }
    let answers = compare_calls(&calls);
    assert_eq!(answers.iter().map(|answer| answer.1).collect::<BTreeSet<_>>(), BTreeSet::from([0, 1]));
}

/// The call of a load.
fn on_seed((n, g): (usize, usize), seed: u32) -> Call {
    Call { which: LOAD, n, g, k: 0, list: vec![seed & 0xffff, seed >> 16] }
}

#[test]
fn loads_of_every_size_are_records_as_defined_and_a_refused_one_has_the_seed_and_a_blank_record() {
    let mut random = Random::new(0x1f0a_d5ee_d000_0006);
    let numbers = (0..=18).chain([255, 256, LARGEST]);
    let mut calls = Vec::new();
    for sizes in numbers.clone().flat_map(|n| numbers.clone().map(move |g| (n, g))) {
        let seeds = [0, 1, 0xffff, 0x1_0000, u32::MAX, 1_640_531_526, 1_640_531_527, random.draw() as u32];
        calls.extend(seeds.map(|seed| on_seed(sizes, seed)));
    }
    for sizes in every_size() {
        calls.extend((0..60).map(|_| on_seed(sizes, random.draw() as u32)));
    }
    let answers = compare_calls(&calls);
    assert_reached(&[LOAD], &[0, 1, 2, 7], &calls, &answers);
    assert_eq!(answers.iter().filter(|answer| answer.1 == 0).count(), 53 * 68);
}

#[test]
fn a_run_table_has_128_places_the_unused_ones_zero() {
    let mut random = Random::new(0x1000_0001_b3ff_5a17);
    for m in 1..=7 {
        let n = 16.min((1 << m) - 1);
        let plan = Sample { n, m, columns: columns(&mut random, n, m) };
        let words = given(&mut random, &plan, Form::Words);
        let mask = last_letters(&plan.columns);
        let of_design = on_record(RUNS_OF_DESIGN, (n, n - m), 0, &record(m, &plan.columns, mask), &[]);
        let calls = [of_design, on_list(RUNS_OF_WORDS, &words)];
        compare_calls(&calls);
        let runs = printed(&calls).iter().map(|line| numbers_after(line, "runs")).collect::<Vec<_>>();
        assert_eq!(runs[0][..1 << m], switched_runs(m, &plan.columns, mask));
        for runs in runs {
            assert_eq!(runs.len(), RUNS);
            assert!(runs[1 << m..].iter().all(|&run| run == 0), "{runs:?}");
        }
    }
}

#[test]
fn a_design_record_has_its_counts_and_sixteen_columns_those_past_n_zero() {
    let mut random = Random::new(0x0123_4567_89ab_cdef);
    for _ in 0..100 {
        let plan = sample(&mut random);
        let calls = [(DESIGN_OF_WORDS, Form::Words), (DESIGN_OF_RUNS, Form::Runs)]
            .map(|(which, form)| on_list(which, &given(&mut random, &plan, form)));
        compare_calls(&calls);
        for line in printed(&calls) {
            assert_eq!(numbers_after(&line, "factors"), [plan.n as u32]);
            assert_eq!(numbers_after(&line, "basics"), [plan.m as u32]);
            let columns = numbers_after(&line, "columns");
            assert_eq!(columns.len(), 16);
            assert!(columns[plan.n..].iter().all(|&column| column == 0), "{line}");
            let mask = numbers_after(&line, "mask");
            assert!(mask.len() == 1 && mask[0] & !last_letters(&columns[..plan.n]) == 0, "{line}");
        }
    }
}

#[test]
fn the_callers_own_list_is_handed_back_and_the_empty_start_of_the_first_if_refused() {
    let mut random = Random::new(0xfedc_ba98_7654_3210);
    let mut calls = Vec::new();
    for _ in 0..300 {
        let plan = long_or_short(&mut random);
        let &Sample { n, m, .. } = &plan;
        let other = Sample { n, m, columns: columns(&mut random, n, m) };
        let first = given(&mut random, &plan, Form::Words);
        let mut second = if random.below(4) == 0 { first.clone() } else { given(&mut random, &other, Form::Words) };
        if random.below(3) == 0 {
            second = damaged(&mut random, &second);
        }
        let pair = if random.below(2) == 0 { [&first.list, &second.list] } else { [&second.list, &first.list] };
        calls.push(Call { k: pair[0].len(), list: [pair[0].clone(), pair[1].clone()].concat(), ..on_list(LESS_ABERRATION, &second) });
    }
    compare_calls(&calls);
    let handed: Vec<Vec<u32>> = printed(&calls).iter().map(|line| numbers_after(line, "list")).collect();
    let count = |list: fn(&Call) -> &[u32]| calls.iter().zip(&handed).filter(|(call, handed)| list(call) == **handed).count();
    let (first, second, empty) = (count(|call| &call.list[..call.k]), count(|call| &call.list[call.k..]), count(|_| &[]));
    assert!(first > 50 && second > 50 && empty > 50, "{first} first lists, {second} second ones, {empty} empty");
}

#[test]
fn a_record_that_is_not_n_and_m_is_refused_under_4() {
    let columns = [1, 2, 4, 7, 8];
    for which in ON_RECORDS {
        let mut calls = Vec::new();
        for factors in (0..20).chain([255]) {
            for basics in (0..20).chain([255]) {
                let mut other = record(4, &columns, 0);
                other[..2].copy_from_slice(&[factors, basics]);
                calls.push(on_record(which, (5, 1), 16, &other, &record(4, &columns, 0)));
                if which == COMPARE_DESIGNS {
                    calls.push(on_record(which, (5, 1), 16, &record(4, &columns, 0), &other));
                }
            }
        }
        let answers = compare_calls(&calls);
        for (call, answer) in calls.iter().zip(answers) {
            let right = call.list.chunks(RECORD).filter(|record| record.len() == RECORD).all(|record| record[..2] == [5, 4]);
            assert_eq!(answer.1, if right { 0 } else { 4 }, "{call:?}");
        }
    }
}

/// Every bit of the mask, with plans that are in order, of low rank, or with short words: a factor is the last letter of a word if its column is
/// in the span of those before it.
#[test]
fn a_mask_bit_at_a_factor_that_is_the_last_letter_of_no_word_is_refused_under_5() {
    let plans: [(usize, &[u32], u32); 5] = [
        (2, &[1, 2, 3], 0),
        (4, &[1, 2, 4, 7, 8], 0),
        (3, &[1, 2, 1, 2], 6),
        (3, &[1, 2, 4, 0], 7),
        (6, &[1, 2, 4, 7, 8, 11, 16, 32, 61], 0),
    ];
    for (m, columns, number) in plans {
        let n = columns.len();
        for which in ON_RECORDS {
            let calls: Vec<Call> =
                (0..16).map(|bit| on_record(which, (n, n - m), 16, &record(m, columns, 1 << bit), &record(m, columns, 0))).collect();
            for (bit, (name, found)) in compare_calls(&calls).into_iter().enumerate() {
                let expected = if last_letters(columns) >> bit & 1 == 0 { 5 } else { number };
                assert!(name == "same" || found == expected, "bit {bit} of {columns:?}: {name} {found}");
                assert_eq!(name == "same", which == COMPARE_DESIGNS && expected == 0, "bit {bit} of {columns:?}");
            }
        }
    }
}

#[test]
fn a_used_place_past_n_is_refused_under_5() {
    let plans: [(usize, &[u32]); 4] = [(2, &[1, 2, 3]), (4, &[1, 2, 4, 7, 8]), (6, &[1, 2, 4, 7, 8, 11, 16, 32, 61]), (3, &[1, 2, 4])];
    for (m, columns) in plans {
        let n = columns.len();
        let mut calls = Vec::new();
        for place in n..16 {
            for value in [1, 3, 64, 255] {
                let mut used = record(m, columns, 0);
                used[2 + place] = value;
                calls.extend(ON_RECORDS.map(|which| on_record(which, (n, n - m), 16, &used, &record(m, columns, 0))));
                calls.push(on_record(COMPARE_DESIGNS, (n, n - m), 16, &record(m, columns, 0), &used));
            }
        }
        assert!(compare_calls(&calls).iter().all(|answer| answer.1 == 5));
    }
}

/// The other arguments' number, 0 to 8, with a plan that is accepted and plans that are refused under 4 to 7, and a lent list that is long enough
/// or one place too short, which is 8.
#[test]
fn the_lowest_of_the_plans_number_the_other_arguments_and_the_lent_lists_is_answered() {
    let refused =
        [(0, vec![1, 2, 4, 7, 8]), (4, vec![1, 2, 4, 7]), (5, vec![1, 2, 4, 7, 16]), (6, vec![1, 2, 4, 7, 3]), (7, vec![1, 2, 4, 8, 8])];
    let mut calls = Vec::new();
    let mut expected = Vec::new();
    for (own, columns) in &refused {
        for other in 0..=8 {
            for (k, lent) in [(5, 0), (4, 8)] {
                calls.push(Call { which: FORM_OF_DESIGN, n: 5, g: 1, k, list: [record(4, columns, 0), vec![other]].concat() });
                expected.push([*own, other, lent].into_iter().filter(|&number| number != 0).min().unwrap_or(0));
            }
        }
    }
    let answers: Vec<u32> = compare_calls(&calls).into_iter().map(|answer| answer.1).collect();
    assert_eq!(answers, expected);
}
