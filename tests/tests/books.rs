//! The book: every catalogue of a small size, random lists, every refusal, the exact limits, and damaged lists.

use plan_tests::books::{compare_any, compare_book, compare_refused, compare_written, joined};
use plan_tests::catalogues::{every_smallest_form, with_resolution};
use plan_tests::check::book::{entry, header, MOST_PLANS};
use plan_tests::check::columns::last_letters;
use plan_tests::check::measures::resolution;
use plan_tests::check::plan::{plan_bytes, stride, Given, Plan};
use plan_tests::random::Random;
use plan_tests::samples::{columns, sample};

/// The resolution that a plan without a word below it can be wanted with: at least 3, at most 16.
fn most_wanted(n: usize, m: usize, plan: &[u32]) -> usize {
    let words = Plan::new(&Given::columns(n, n - m, plan, 0)).words;
    if words.is_empty() {
        16
    } else {
        resolution(n, &words) as usize
    }
}

#[test]
fn the_book_of_5_1_3_byte_by_byte() {
    let plans = [vec![1, 2, 3, 4, 8], vec![1, 2, 4, 7, 8], vec![1, 2, 4, 8, 15]];
    let expected = [
        [0x01, 5, 1, 3, 3, 0].as_slice(),
        &[0x25, 1, 2, 3, 4, 8, 0x45, 1, 0, 0, 0, 0, 0],
        &[0x25, 1, 2, 4, 7, 8, 0x45, 0, 0, 1, 0, 0, 0],
        &[0x25, 1, 2, 4, 8, 15, 0x45, 0, 0, 0, 0, 1, 0],
    ];
    compare_written(5, 1, 3, &joined(&plans), 100, &expected.concat());
}

#[test]
fn below_3_factors_the_pattern_is_empty() {
    compare_written(1, 0, 3, &[1, 0, 0, 1, 0, 0], 12, &[0x01, 1, 0, 3, 2, 0, 0x21, 1, 0x41, 0x21, 1, 0x41]);
    compare_written(2, 0, 16, &[2, 1, 0, 0], 11, &[0x01, 2, 0, 16, 1, 0, 0x22, 2, 1, 0x42]);
}

#[test]
fn a_count_above_255_takes_two_bytes() {
    // All 15 columns of 16 runs: 35 words of 3, 105 of 4, 168 of 5, 280 of 6 and so on.
    let plan: Vec<u32> = (1..=15).collect();
    let bytes = entry(15, 11, &plan);
    assert_eq!(bytes[17..25], [35, 0, 105, 0, 168, 0, 24, 1]);
    compare_book(15, 11, 3, &[plan]);
}

#[test]
fn every_catalogue_of_up_to_8_factors() {
    for n in 1..=8 {
        for m in 1..=n.min(7) {
            let forms = every_smallest_form(n, m);
            for r in 3..=(n + 1).clamp(3, 16) {
                compare_book(n, n - m, r, &with_resolution(&forms, r));
            }
        }
    }
}

#[test]
fn random_lists_of_plans_in_any_order_of_columns() {
    let mut random = Random::new(31);
    for _ in 0..150 {
        let first = sample(&mut random);
        let (n, m) = (first.n, first.m);
        let mut plans = vec![first.columns];
        for _ in 0..random.below(4) {
            plans.push(columns(&mut random, n, m));
        }
        plans.push(plans[0].clone());
        let most = plans.iter().map(|plan| most_wanted(n, m, plan)).min().expect("some plan");
        for r in [3, most] {
            compare_book(n, n - m, r, &plans);
        }
        if most < 16 {
            compare_refused(n, n - m, most + 1, &joined(&plans), 10_000, 7);
        }
    }
}

#[test]
fn every_number_and_the_lowest_of_several_plans() {
    let good = [1, 2, 3, 4, 8, 0, 0];
    let above = [1, 2, 3, 4, 16, 0, 0];
    let low = [1, 2, 3, 4, 5, 0, 0];
    let short = [1, 2, 4, 4, 8, 0, 0];
    let call = |plans: &[[u8; 7]], r, places, number| compare_refused(5, 1, r, &plans.concat(), places, number);
    for n in [0, 17, 18, 65_536, usize::MAX] {
        compare_refused(n, 1, 2, &good, 100, 1);
        compare_refused(n, n, 3, &[], 100, 1);
    }
    for (n, g) in [(5, 5), (5, 6), (9, 1), (16, 8), (5, usize::MAX)] {
        compare_refused(n, g, 2, &good, 100, 2);
        compare_refused(n, g, 3, &[], 0, 2);
    }
    for r in [0, 2, 17, 256, usize::MAX] {
        compare_refused(5, 1, r, &good[..4], 0, 3);
        compare_refused(5, 1, r, &[], 100, 3);
    }
    for len in [1, 4, 5, 6, 8, 9, 13, 15] {
        compare_refused(5, 1, 3, &[above, above, above].concat()[..len], 0, 4);
    }
    call(&[above], 3, 0, 5);
    call(&[low], 3, 0, 6);
    call(&[short], 3, 0, 7);
    call(&[good], 4, 0, 7);
    call(&[good], 3, 0, 8);
    call(&[good, good, above], 3, 1_000, 5);
    call(&[short, low, above, good], 3, 1_000, 5);
    call(&[good, short, low, good], 3, 1_000, 6);
    call(&[good, good, short], 3, 1_000, 7);
    call(&[[1, 2, 4, 8, 15, 0, 0], good], 5, 1_000, 7);
}

/// A mask that the columns allow, one that they bar, and one past factor N, each with plans that are in order, of low rank or with short words.
#[test]
fn a_mask_other_than_0_is_refused_under_5_before_6_and_7() {
    for columns in [[1, 2, 3, 4, 8], [1, 2, 3, 4, 5], [1, 2, 4, 4, 8], [1, 2, 4, 8, 15]] {
        let allowed = last_letters(&columns);
        assert_ne!(allowed, 0);
        for mask in (1..32).chain([allowed, 1 << 5, 1 << 8, 1 << 15, 0xffff]) {
            for others in 0..3 {
                let mut plans = joined(&vec![vec![1, 2, 3, 4, 8]; others]);
                plans.extend(plan_bytes(&columns, mask).iter().map(|&byte| byte as u8));
                plans.extend(joined(&[vec![1, 2, 4, 4, 8]]));
                compare_refused(5, 1, 3, &plans, 1_000, 5);
                compare_refused(5, 1, 6, &plans, 0, 5);
                compare_refused(5, 1, 2, &plans, 0, 3);
            }
        }
    }
}

#[test]
fn an_empty_list_is_a_header() {
    for r in [3, 16] {
        compare_book(5, 1, r, &[]);
        compare_book(16, 9, r, &[]);
    }
    compare_written(5, 1, 4, &[], 6, &[0x01, 5, 1, 4, 0, 0]);
}

#[test]
fn a_full_factorial_meets_every_resolution() {
    for n in 1..=7 {
        let plan: Vec<u32> = (0..n).map(|f| 1 << f).collect();
        for r in 3..=16 {
            compare_book(n, 0, r, &[plan.clone(), plan.clone()]);
        }
    }
}

#[test]
fn a_book_has_65_535_plans_and_no_more() {
    for (n, g, plan) in [(1, 0, vec![1]), (3, 1, vec![3, 1, 2]), (16, 9, vec![1, 2, 4, 8, 16, 32, 64, 7, 25, 42, 53, 75, 86, 97, 127, 112])]
    {
        let (given, one) = (joined(&[plan.clone()]), entry(n, g, &plan));
        let expected = [header(n, g, 3, MOST_PLANS), one.repeat(MOST_PLANS)].concat();
        let plans = given.repeat(MOST_PLANS);
        compare_written(n, g, 3, &plans, expected.len(), &expected);
        compare_refused(n, g, 3, &plans, expected.len() - 1, 8);
        let more = given.repeat(MOST_PLANS + 1);
        compare_refused(n, g, 3, &more, expected.len() + one.len(), 4);
        compare_refused(n, g, 3, &more, 0, 4);
    }
}

#[test]
fn too_many_plans_come_before_a_fault_of_one() {
    for (place, fault) in [(0, 0), (0, 255), (0, 2), (3, 4), (4, 1)] {
        let mut plans = [1, 2, 3, 0, 0].repeat(MOST_PLANS + 1);
        plans[30_000 + place] = fault;
        compare_refused(3, 1, 3, &plans, 100, 4);
        compare_refused(3, 1, 17, &plans, 100, 3);
    }
}

#[test]
fn damaged_lists() {
    let mut random = Random::new(77);
    let mut seen = [0; 9];
    for _ in 0..3_000 {
        let first = sample(&mut random);
        let (n, m) = (first.n, first.m);
        let mut plans = joined(&[first.columns, columns(&mut random, n, m)]);
        for _ in 0..random.below(3) {
            let place = [random.below(plans.len()), random.below(2) * stride(n) + random.below(n)][random.below(2)];
            plans[place] = match random.below(4) {
                0 => 0,
                1 => plans[random.below(plans.len())],
                2 => random.below(1 << m) as u8,
                _ => random.below(256) as u8,
            };
        }
        if random.below(20) == 0 {
            plans.truncate(plans.len() - random.between(1, 3));
        }
        let r = [3, 3, 3, 4, 2, 5][random.below(6)];
        let places = [600, 600, 600, 30][random.below(4)];
        seen[usize::from(compare_any(n, n - m, r, &plans, places))] += 1;
    }
    for number in [0, 3, 4, 5, 6, 7, 8] {
        assert!(seen[number] > 20, "number {number}: {seen:?}");
    }
}
