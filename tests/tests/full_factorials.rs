//! Full factorials: their resolution in every form, and their place above every other plan of their factors.

use plan_tests::calls::call;
use plan_tests::catalogues::entries;
use plan_tests::check::plan::{Form, Given, Question};
use plan_tests::guarded::{plan_resolution_of_columns, plan_resolution_of_runs, plan_resolution_of_words};
use plan_tests::random::Random;
use plan_tests::samples::{columns, damaged, given, sample, Sample};

const FORMS: [Form; 3] = [Form::Words, Form::Columns, Form::Runs];

/// The resolution that the library answers.
fn resolution(given: &Given) -> u32 {
    let found = call(given, Question::Resolution, 1);
    assert_eq!(found.answer, 0, "{given:?}");
    found.result(1)[0]
}

#[test]
fn a_full_factorial_of_n_factors_has_resolution_n_plus_1_in_every_form() {
    let mut random = Random::new(0x2f0f);
    for n in 1..=7 {
        for _ in 0..100 {
            let plan = Sample { n, m: n, columns: columns(&mut random, n, n) };
            for form in FORMS {
                let list = given(&mut random, &plan, form);
                assert_eq!(resolution(&list), n as u32 + 1, "{list:?}");
            }
        }
    }
}

/// The resolution and G of every entry of n factors and up to 7 basic ones.
fn ranked(n: usize) -> Vec<(u32, usize)> {
    let mut list = Vec::new();
    for g in n.saturating_sub(7)..n {
        let (whole, entries) = entries(n, g, 3, 1_000);
        assert!(whole, "{n} {g} 3");
        list.extend(entries.into_iter().map(|columns| (resolution(&Given::columns(n, g, &columns, 0)), g)));
    }
    list.sort();
    list
}

#[test]
fn of_all_entries_of_n_factors_the_full_factorial_sorts_to_the_top() {
    for n in 1..=7 {
        let mut list = ranked(n);
        assert_eq!(list.pop(), Some((n as u32 + 1, 0)));
        assert!(list.iter().all(|&(resolution, g)| 3 <= resolution && resolution <= n as u32 && 0 < g), "{n}: {list:?}");
    }
}

#[test]
fn without_a_full_factorial_no_resolution_is_above_n() {
    for n in 8..=11 {
        assert!(ranked(n).iter().all(|&(resolution, _)| 3 <= resolution && resolution <= n as u32), "{n}");
    }
}

/// The answer of a call whose place is 0 before it, and the place after it.
fn from_0(&Given { n, g, form, ref list, signs }: &Given) -> (u8, u8) {
    let shorts: Vec<u16> = list.iter().map(|&x| x as u16).collect();
    let bytes: Vec<u8> = list.iter().map(|&x| x as u8).collect();
    let mut place = [0];
    let number = match form {
        Form::Words => plan_resolution_of_words(n, g, &shorts, signs as u16, &mut place),
        Form::Columns => plan_resolution_of_columns(n, g, &bytes, &mut place),
        Form::Runs => plan_resolution_of_runs(n, g, &shorts, &mut place),
    };
    (number, place[0])
}

#[test]
fn a_place_of_0_is_0_after_the_call_exactly_if_it_was_refused() {
    let mut random = Random::new(0x2f10);
    let (mut accepted, mut refused) = (0, 0);
    for _ in 0..1_000 {
        let plan = sample(&mut random);
        for form in FORMS {
            let good = given(&mut random, &plan, form);
            for list in [damaged(&mut random, &good), good] {
                let (number, place) = from_0(&list);
                assert_eq!(number == 0, place != 0, "{number} and {place} for {list:?}");
                *if number == 0 { &mut accepted } else { &mut refused } += 1;
            }
        }
    }
    assert!(accepted > 3_000 && refused > 1_000, "{accepted} accepted, {refused} refused");
}
