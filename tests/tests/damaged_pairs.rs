//! Comparisons of lists that are damaged in every way: each refusal is reached, under the lowest number, and no list is touched.

use plan_tests::check::plan::{plan_bytes, Form};
use plan_tests::compare_pairs::{compare_any, Counts};
use plan_tests::known::Known;
use plan_tests::pairs::Pair;
use plan_tests::random::Random;
use plan_tests::samples::{any_mask, columns, damaged, given, sample, short_sample};

const FORMS: [Form; 2] = [Form::Columns, Form::Runs];

/// What a comparison may refuse by.
const REFUSALS: [usize; 7] = [1, 2, 4, 5, 6, 7, 8];

fn pair(n: usize, g: usize, form: Form, first: &[u32], second: &[u32]) -> Pair {
    Pair { n, g, form, first: first.to_vec(), second: second.to_vec() }
}

#[test]
fn damaged_pairs_are_refused_under_the_lowest_number_and_every_number_is_reached() {
    for form in FORMS {
        let mut random = Random::new(0xbad0 + form as u64);
        let mut counts = Counts::default();
        for _ in 0..500 {
            let plan = sample(&mut random);
            let plan = if random.below(4) == 0 { short_sample(&mut random, &plan).unwrap_or(plan) } else { plan };
            let good = given(&mut random, &plan, form);
            let (one, two) = (damaged(&mut random, &good), damaged(&mut random, &good));
            for (sizes, first, second) in [(&one, &one, &good), (&one, &good, &one), (&one, &one, &two), (&good, &good, &good)] {
                let places = if random.below(3) == 0 { random.below(good.n) } else { good.n + random.below(3) };
                compare_any(&pair(sizes.n, sizes.g, form, &first.list, &second.list), places, &mut counts);
            }
        }
        for number in REFUSALS {
            assert!(counts.refused[number] > 0, "{form:?} never refused under {number}: {counts:?}");
        }
        assert!(counts.same > 0, "{form:?}: {counts:?}");
    }
}

#[test]
fn every_size_is_refused_under_1_or_2_as_defined() {
    let sizes: Vec<usize> = (0..=26).chain([64, 127, 128, 255, 256, 257, 65536, 1 << 32, usize::MAX - 1, usize::MAX]).collect();
    let mut counts = Counts::default();
    for &n in &sizes {
        for &g in &sizes {
            for form in FORMS {
                compare_any(&pair(n, g, form, &[], &[]), 0, &mut counts);
                compare_any(&pair(n, g, form, &[1, 2, 4, 7, 0, 0], &[1, 2, 4, 7, 8, 0]), 20, &mut counts);
                compare_any(&pair(n, g, form, &[0, 5, 6, 3], &[1, 2]), 3, &mut counts);
            }
        }
    }
    for number in [1, 2, 4] {
        assert!(counts.refused[number] > 0, "{counts:?}");
    }
}

#[test]
fn lists_of_every_wrong_count_are_refused_under_4_on_either_side() {
    let mut random = Random::new(0x44);
    for form in FORMS {
        for (n, m) in [(1, 1), (3, 2), (4, 3), (7, 4), (16, 7)] {
            let plan = Known::new(m, &columns(&mut random, n, m));
            let good = if form == Form::Columns { plan_bytes(&plan.columns, 0) } else { plan.table(&mut random) };
            let mut counts = Counts::default();
            for count in (0..140).filter(|&count| count != good.len()) {
                let wrong: Vec<u32> = good.iter().copied().cycle().take(count).collect();
                compare_any(&pair(n, n - m, form, &good, &wrong), n, &mut counts);
                compare_any(&pair(n, n - m, form, &wrong, &good), n, &mut counts);
                compare_any(&pair(n, n - m, form, &wrong, &wrong), 0, &mut counts);
            }
            assert_eq!(counts.refused[4], 3 * 139, "{form:?} {n} {m}: {counts:?}");
        }
    }
}

#[test]
fn every_pair_of_column_lists_of_3_factors_with_2_basic_is_answered_as_defined() {
    let lists: Vec<Vec<u32>> = (0..216).map(|code| vec![code % 6, code / 6 % 6, code / 36]).collect();
    let masks = [0, 1, 2, 4, 6, 8, 0x100];
    let mut counts = Counts::default();
    for (i, first) in lists.iter().enumerate() {
        for (j, second) in lists.iter().enumerate() {
            let bytes = |columns: &[u32], turn: usize| plan_bytes(columns, [0, masks[turn % masks.len()]][turn / 7 % 2]);
            compare_any(&pair(3, 1, Form::Columns, &bytes(first, i + j), &bytes(second, i + 5 * j)), 2 + (i + j) % 3, &mut counts);
        }
    }
    for number in [5, 6, 7, 8] {
        assert!(counts.refused[number] > 0, "{counts:?}");
    }
    assert!(counts.same > 10 && counts.different == 0, "one plan only: {counts:?}");
}

#[test]
fn a_witness_list_of_every_length_is_enough_from_n_places_on() {
    let mut random = Random::new(0x88);
    for (n, m) in [(1, 1), (5, 4), (9, 6), (16, 7)] {
        let plan = Known::new(m, &columns(&mut random, n, m));
        let others = [Some(plan.scrambled(&mut random)), plan.near_miss(&mut random)];
        for other in others.iter().flatten() {
            let [first, second] = [&plan, other].map(|plan| plan_bytes(&plan.columns, any_mask(&mut random, &plan.columns)));
            let records = pair(n, n - m, Form::Columns, &first, &second);
            let tables = pair(n, n - m, Form::Runs, &plan.table(&mut random), &other.table(&mut random));
            let mut counts = Counts::default();
            for places in 0..40 {
                compare_any(&records, places, &mut counts);
                compare_any(&tables, places, &mut counts);
            }
            assert_eq!(counts.refused[8], 2 * n, "{counts:?}");
        }
    }
}
