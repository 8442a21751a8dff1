//! The check of a claimed witness: true ones, damaged ones, and any list of names and any mask.

use plan_tests::check::plan::Form;
use plan_tests::check::refusals::{accepted, lowest};
use plan_tests::check::renamings::is_witness;
use plan_tests::known::{disguised, renaming, Known};
use plan_tests::pairs::{call_check, Pair, Verdict};
use plan_tests::random::Random;
use plan_tests::samples::{columns, damaged, given, sample, short_sample};
use std::collections::BTreeSet;

/// What the check must say of names and mask between tables that are plans.
fn judged(pair: &Pair, names: &[u32], mask: u32) -> Verdict {
    match is_witness(pair.n, &pair.first, &pair.second, names, mask) {
        true => Verdict::Yes,
        false => Verdict::No,
    }
}

/// Checks names and mask between tables that are plans, and returns what came of it.
fn check(pair: &Pair, names: &[u32], mask: u32) -> Verdict {
    let expected = judged(pair, names, mask);
    assert_eq!(call_check(pair, names, mask), expected, "names {names:?} mask {mask:#x} for {pair:?}");
    expected
}

/// A random plan of any size and a disguise of it: the pair, the names and the mask.
fn disguise(random: &mut Random) -> (Pair, Vec<u32>, u32) {
    let plan = sample(random);
    let first = Known::new(plan.m, &plan.columns).table(random);
    let (names, mask, second) = disguised(random, plan.n, &first);
    (Pair { n: plan.n, g: plan.n - plan.m, form: Form::Runs, first, second }, names, mask)
}

#[test]
fn true_witnesses_are_confirmed() {
    let mut random = Random::new(0x1001);
    for _ in 0..1000 {
        let (pair, names, mask) = disguise(&mut random);
        assert_eq!(check(&pair, &names, mask), Verdict::Yes);
    }
}

#[test]
fn a_name_used_twice_gets_no() {
    let mut random = Random::new(0x2002);
    for _ in 0..500 {
        let (pair, mut names, mask) = disguise(&mut random);
        let (i, j) = (random.below(pair.n), random.below(pair.n));
        if i != j {
            names[i] = names[j];
            assert_eq!(check(&pair, &names, mask), Verdict::No);
        }
    }
}

#[test]
fn a_name_out_of_range_gets_no() {
    let mut random = Random::new(0x3003);
    for _ in 0..500 {
        let (pair, mut names, mask) = disguise(&mut random);
        let i = random.below(pair.n);
        for name in [pair.n as u32, 16, 17, 32 + names[i], 127, 128 + names[i], 255] {
            names[i] = name;
            assert_eq!(check(&pair, &names, mask), Verdict::No);
        }
    }
}

#[test]
fn a_list_of_another_length_gets_no() {
    let mut random = Random::new(0x4004);
    for _ in 0..500 {
        let (pair, names, mask) = disguise(&mut random);
        assert_eq!(check(&pair, &names[1..], mask), Verdict::No);
        assert_eq!(check(&pair, &names[..pair.n - 1], mask), Verdict::No);
        assert_eq!(check(&pair, &[], mask), Verdict::No);
        for more in [0, pair.n as u32, 255] {
            assert_eq!(check(&pair, &[names.clone(), vec![more]].concat(), mask), Verdict::No);
            assert_eq!(check(&pair, &[vec![more], names.clone()].concat(), mask), Verdict::No);
        }
        for times in [2, 16, 17, 100] {
            assert_eq!(check(&pair, &names.repeat(times), mask), Verdict::No);
        }
    }
}

#[test]
fn a_mask_bit_past_the_factors_gets_no() {
    let mut random = Random::new(0x5005);
    for _ in 0..500 {
        let (pair, names, mask) = disguise(&mut random);
        for bit in pair.n..16 {
            assert_eq!(check(&pair, &names, mask ^ 1 << bit), Verdict::No);
        }
    }
}

#[test]
fn a_wrong_mask_bit_gets_no_unless_its_factor_is_in_no_word() {
    let mut random = Random::new(0x6006);
    let mut found = [0, 0];
    for _ in 0..500 {
        let (pair, names, mask) = disguise(&mut random);
        for bit in 0..pair.n {
            found[usize::from(check(&pair, &names, mask ^ 1 << bit) == Verdict::Yes)] += 1;
        }
    }
    assert!(found[0] > 1000 && found[1] > 100, "no and yes: {found:?}");
}

#[test]
fn other_names_other_masks_and_other_plans_are_judged_as_defined() {
    let mut random = Random::new(0x7007);
    let mut found = [0, 0];
    for _ in 0..1000 {
        let (pair, mut names, mask) = disguise(&mut random);
        let other = columns(&mut random, pair.n, pair.n - pair.g);
        let other = Known::new(pair.n - pair.g, &other).table(&mut random);
        let apart = Pair { second: other, ..pair.clone() };
        let drawn = renaming(&mut random, pair.n);
        let any_mask = random.below(1 << 16) as u32;
        let run = pair.second[random.below(pair.second.len())] ^ pair.second[0];
        names.swap(random.below(pair.n), random.below(pair.n));
        let claims = [(&names, mask), (&drawn, mask), (&drawn, any_mask), (&names, any_mask), (&names, mask ^ run)];
        for (names, mask) in claims {
            found[usize::from(check(&pair, names, mask) == Verdict::Yes)] += 1;
            found[usize::from(check(&apart, names, mask) == Verdict::Yes)] += 1;
        }
    }
    assert!(found[0] > 1000 && found[1] > 100, "no and yes: {found:?}");
}

/// Every list of up to n names from 0 to n.
fn lists_of_names(n: usize) -> Vec<Vec<u32>> {
    let base = n + 1;
    let list = |count: u32, code: usize| (0..count).map(|i| (code / base.pow(i) % base) as u32).collect();
    (0..=n as u32).flat_map(|count| (0..base.pow(count)).map(move |code| list(count, code))).collect()
}

#[test]
fn every_list_of_up_to_n_names_from_0_to_n_with_every_mask_of_n_plus_1_bits_is_judged_as_defined_for_3_and_4_factors() {
    for (n, m, first, second) in [(3usize, 2, vec![1, 2, 3], vec![2, 1, 3]), (4, 3, vec![1, 2, 4, 7], vec![1, 2, 3, 4])] {
        let mut random = Random::new(0x8008);
        let plans = [first, second].map(|columns| Known::new(m, &columns));
        for (one, two) in [(0, 0), (0, 1), (1, 1)] {
            let (first, second) = (plans[one].table(&mut random), plans[two].table(&mut random));
            let pair = Pair { n, g: n - m, form: Form::Runs, first, second };
            for names in lists_of_names(n) {
                for mask in (0..1 << (n + 1)).chain([0x8000, 0xffff]) {
                    check(&pair, &names, mask);
                }
            }
        }
    }
}

#[test]
fn damaged_tables_are_refused_under_the_lowest_number_whatever_the_names() {
    let mut random = Random::new(0x9009);
    let mut reached = BTreeSet::new();
    for _ in 0..500 {
        let plan = sample(&mut random);
        let plan = if random.below(4) == 0 { short_sample(&mut random, &plan).unwrap_or(plan) } else { plan };
        let good = given(&mut random, &plan, Form::Runs);
        let (one, two) = (damaged(&mut random, &good), damaged(&mut random, &good));
        let names = renaming(&mut random, good.n);
        let lists = [names.clone(), vec![], vec![255; good.n], names.repeat(3)];
        for (first, second) in [(&one, &good), (&good, &one), (&one, &two)] {
            let pair = Pair { n: one.n, g: one.g, form: Form::Runs, first: first.list.clone(), second: second.list.clone() };
            let number = |list: &[u32]| accepted(&pair.given(list)).err().unwrap_or(0);
            let refusal = lowest(number(&pair.first), number(&pair.second));
            for names in &lists {
                let mask = random.below(1 << 16) as u32;
                let expected = if refusal == 0 { judged(&pair, names, mask) } else { Verdict::Refused(refusal) };
                let found = call_check(&pair, names, mask);
                reached.insert(if let Verdict::Refused(number) = found { number } else { 0 });
                assert_eq!(found, expected, "names {names:?} mask {mask:#x} for {pair:?}");
            }
        }
    }
    assert_eq!(reached, [0, 1, 2, 4, 5, 6, 7].into(), "what was answered: no 3, and no 8, whatever the count of names");
}
