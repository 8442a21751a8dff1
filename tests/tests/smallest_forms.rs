//! Smallest forms: of every small plan, of random plans in other names and basics, of a catalogue's entries, of run tables, of several plans
//! in one call; their first place in a list; and refusals.

use plan_tests::catalogues::{catalogue, Entries};
use plan_tests::check::columns::rank_is;
use plan_tests::check::labels::label;
use plan_tests::check::plan::{plan_bytes, stride, Form, Given};
use plan_tests::check::runs::runs_of_columns;
use plan_tests::check::smallest::{every_rising_list, smallest};
use plan_tests::forms::{compare_bytes, compare_plans, compare_smallest, compare_sought, form_of, Sought};
use plan_tests::known::{every_plan, in_other_basics};
use plan_tests::random::Random;
use plan_tests::samples::{any_mask, columns, damaged, given, sample, short_sample, Sample};

/// The same plan: the columns written in other basic factors, in another order.
fn scrambled(random: &mut Random, m: usize, columns: &[u32]) -> Vec<u32> {
    let mut other = in_other_basics(random, m, columns);
    random.shuffle(&mut other);
    other
}

/// Lists just long enough, or longer: so many places each.
fn places_each(random: &mut Random, enough: (usize, usize)) -> (usize, usize) {
    let more = |random: &mut Random| if random.below(2) == 0 { random.below(6) } else { 0 };
    (enough.0 + more(random), enough.1 + more(random))
}

/// The same for the form and the witness of a plan of n factors.
fn places(random: &mut Random, n: usize) -> (usize, usize) {
    places_each(random, (stride(n), n))
}

/// A plan in bytes, with any mask.
fn switched(random: &mut Random, columns: &[u32]) -> Vec<u32> {
    plan_bytes(columns, any_mask(random, columns))
}

/// Plans in bytes, one after another, with mask 0.
fn joined(plans: &[Vec<u32>]) -> Vec<u32> {
    plans.iter().flat_map(|columns| plan_bytes(columns, 0)).collect()
}

#[test]
fn every_plan_of_up_to_7_factors_has_the_smallest_form_of_the_checking_program() {
    let mut random = Random::new(0x51);
    for (n, m) in (1..=7).flat_map(|n| (1..=n).map(move |m| (n, m))) {
        for plan in every_plan(n, m) {
            let form = smallest(m, &plan);
            let other = scrambled(&mut random, m, &plan);
            let lent = places(&mut random, n);
            compare_smallest(n, n - m, &plan, &form, lent);
            compare_smallest(n, n - m, &other, &form, lent);
        }
    }
}

#[test]
fn a_smallest_form_stands_before_every_other_rising_list_of_its_label() {
    for (n, m) in [(5, 4), (6, 4), (7, 4), (8, 4)] {
        let mut first: Vec<(Vec<u32>, Vec<u32>)> = Vec::new();
        every_rising_list(n, m, &mut |list| {
            if !rank_is(m, list) {
                return;
            }
            let label = label(n, &runs_of_columns(m, list));
            let place = first.iter().position(|(known, _)| *known == label).unwrap_or_else(|| {
                first.push((label, list.to_vec()));
                first.len() - 1
            });
            compare_smallest(n, n - m, list, &first[place].1, (n + 2, n));
        });
    }
}

/// Every size that has a plan without a short word: N and M.
fn every_size() -> Vec<(usize, usize)> {
    (1..=7).flat_map(|m| (m..=16.min((1 << m) - 1)).map(move |n| (n, m))).collect()
}

#[test]
fn random_plans_of_every_size_have_the_smallest_form_of_the_checking_program() {
    let mut random = Random::new(0x52);
    assert_eq!(every_size().len(), 53);
    for (n, m) in every_size() {
        for _ in 0..6 {
            let plan = columns(&mut random, n, m);
            let form = smallest(m, &plan);
            for list in [plan.clone(), scrambled(&mut random, m, &plan), form.clone()] {
                let lent = places(&mut random, n);
                compare_smallest(n, n - m, &list, &form, lent);
            }
        }
    }
}

/// Sizes whose catalogues have at most a few hundred entries: N and M.
fn sizes() -> Vec<(usize, usize)> {
    let most = [1, 3, 7, 15, 16, 11, 9];
    every_size().into_iter().filter(|&(n, m)| n <= most[m - 1]).collect()
}

/// The whole catalogue of one of these sizes, from which no plan is missing.
fn whole(n: usize, m: usize) -> Entries {
    catalogue(n, m, 3, 1_000)
}

/// The one entry that has the same label as the columns.
fn entry_of(n: usize, m: usize, entries: &Entries, labels: &[Vec<u32>], columns: &[u32]) -> Vec<u32> {
    let wanted = label(n, &runs_of_columns(m, columns));
    let found: Vec<usize> = (0..entries.len()).filter(|&k| labels[k] == wanted).collect();
    assert_eq!(found.len(), 1, "the entries that are the same plan as {columns:?}: {found:?}");
    entries[found[0]].clone()
}

#[test]
fn random_plans_reach_one_entry_of_the_catalogue_and_it_is_their_smallest_form() {
    let mut random = Random::new(0x53);
    for (n, m) in sizes() {
        let entries = whole(n, m);
        let labels: Vec<Vec<u32>> = entries.iter().map(|entry| label(n, &runs_of_columns(m, entry))).collect();
        for _ in 0..20 {
            let plan = columns(&mut random, n, m);
            let entry = entry_of(n, m, &entries, &labels, &plan);
            let lent = places(&mut random, n);
            compare_smallest(n, n - m, &plan, &entry, lent);
        }
    }
}

#[test]
fn the_smallest_form_of_an_entry_is_itself_also_in_other_names_and_basics() {
    let mut random = Random::new(0x54);
    for (n, m) in sizes() {
        for entry in whole(n, m) {
            compare_smallest(n, n - m, &entry, &entry, (n + 2, n));
            let other = scrambled(&mut random, m, &entry);
            compare_smallest(n, n - m, &other, &entry, (n + 3, n + 2));
        }
    }
}

#[test]
fn damaged_lists_are_refused_under_the_lowest_number_and_every_number_is_reached() {
    let mut random = Random::new(0x55);
    let mut reached = [0; 9];
    for _ in 0..2_000 {
        let plan = sample(&mut random);
        let plan = if random.below(4) == 0 { short_sample(&mut random, &plan).unwrap_or(plan) } else { plan };
        let good = given(&mut random, &plan, Form::Columns);
        let Given { n, g, list, .. } = damaged(&mut random, &good);
        let lent = match random.below(4) {
            0 => (random.below(plan.n + 2), plan.n + random.below(3)),
            1 => (plan.n + 2 + random.below(3), random.below(plan.n)),
            2 => (random.below(plan.n + 2), random.below(plan.n)),
            _ => places(&mut random, plan.n),
        };
        reached[compare_bytes(n, g, &list, lent) as usize] += 1;
    }
    for number in [0, 1, 2, 4, 5, 6, 7, 8] {
        assert!(reached[number] > 0, "never answered {number}: {reached:?}");
    }
}

#[test]
fn every_list_of_3_columns_with_2_basic_is_answered_as_defined() {
    for code in 0..216 {
        let list = [code % 6, code / 6 % 6, code / 36];
        for mask in (0..16).chain([0x100, 0x8000]) {
            for lent in [(5, 3), (4, 3), (5, 2), (0, 0), (6, 5)] {
                compare_bytes(3, 1, &plan_bytes(&list, mask), lent);
            }
        }
    }
}

#[test]
fn every_size_is_refused_under_1_or_2_as_defined() {
    let numbers: Vec<usize> = (0..=26).chain([64, 128, 255, 256, 65536, 1 << 32, usize::MAX - 1, usize::MAX]).collect();
    let mut reached = [0; 9];
    for &n in &numbers {
        for &g in &numbers {
            for list in [&[][..], &[1, 2, 4, 7, 0, 0], &[1, 2, 3]] {
                for lent in [(0, 0), (20, 20)] {
                    reached[compare_bytes(n, g, list, lent) as usize] += 1;
                }
            }
        }
    }
    assert!(reached[1] > 1_000 && reached[2] > 1_000 && reached[4] > 0, "{reached:?}");
}

#[test]
fn lists_of_every_length_are_enough_from_n_places_on() {
    let mut random = Random::new(0x56);
    for (n, m) in [(1, 1), (5, 4), (9, 6), (16, 7)] {
        let plan = columns(&mut random, n, m);
        let form = smallest(m, &plan);
        for lent in (0..2 * n + 4).flat_map(|first| (0..2 * n + 2).map(move |second| (first, second))) {
            let answer = compare_smallest(n, n - m, &plan, &form, lent);
            assert_eq!(answer == 8, lent.0 < n + 2 || lent.1 < n);
        }
    }
}

fn columns_or_runs(random: &mut Random) -> Form {
    if random.below(2) == 0 {
        Form::Columns
    } else {
        Form::Runs
    }
}

/// The plan as columns or as a run table, looked for in a list.
fn sought(random: &mut Random, plan: &Sample, among: &[u32]) -> Sought {
    let form = columns_or_runs(random);
    let Given { n, g, list, .. } = given(random, plan, form);
    Sought { n, g, form, plan: list, among: among.to_vec() }
}

#[test]
fn a_smallest_form_is_found_at_its_place_in_the_catalogue() {
    let mut random = Random::new(0x57);
    for (n, m) in sizes() {
        let entries = whole(n, m);
        let among = joined(&entries);
        for _ in 0..10 {
            let at = random.below(entries.len());
            let plan = Sample { n, m, columns: scrambled(&mut random, m, &entries[at]) };
            let lent = places(&mut random, n);
            let call = sought(&mut random, &plan, &among);
            assert_eq!(compare_sought(&call, &entries[at], lent).place, at + 1, "{:?}", plan.columns);
        }
    }
}

#[test]
fn the_first_of_equal_places_counts_and_an_absent_form_has_place_0() {
    let mut random = Random::new(0x58);
    let (mut twice, mut absent) = (0, 0);
    for _ in 0..400 {
        let plan = sample(&mut random);
        let form = smallest(plan.m, &plan.columns);
        let mut list: Vec<Vec<u32>> = (0..random.below(6)).map(|_| columns(&mut random, plan.n, plan.m)).collect();
        for _ in 0..random.below(4) {
            list.insert(random.below(list.len() + 1), form.clone());
        }
        let list: Vec<Vec<u32>> = list.iter().map(|columns| switched(&mut random, columns)).collect();
        let held = list.iter().filter(|other| **other == plan_bytes(&form, 0)).count();
        let lent = places(&mut random, plan.n);
        let call = sought(&mut random, &plan, &list.concat());
        let place = compare_sought(&call, &form, lent).place;
        assert_eq!(place == 0, held == 0);
        twice += usize::from(held > 1);
        absent += usize::from(held == 0 && !list.is_empty());
    }
    assert!(twice > 30 && absent > 50, "{twice} {absent}");
}

#[test]
fn only_equal_columns_with_mask_0_count_as_a_place() {
    let form = [1, 2, 4, 7, 8];
    let list = |plans: &[([u32; 5], u32)]| plans.iter().flat_map(|(columns, mask)| plan_bytes(columns, *mask)).collect::<Vec<u32>>();
    for (among, place) in [
        (list(&[]), 0),
        (list(&[(form, 0)]), 1),
        (list(&[([7, 4, 2, 1, 8], 0)]), 0),
        (list(&[([1, 2, 3, 4, 8], 0), (form, 0), (form, 0)]), 2),
        (list(&[([1, 2, 4, 8, 15], 0)]), 0),
        (list(&[(form, 8)]), 0),
        (list(&[(form, 8), ([7, 4, 2, 1, 8], 8), (form, 0)]), 3),
    ] {
        for plan in [plan_bytes(&[8, 4, 2, 14, 1], 0), plan_bytes(&[8, 4, 2, 14, 1], 8)] {
            let call = Sought { n: 5, g: 1, form: Form::Columns, plan, among: among.clone() };
            assert_eq!(compare_sought(&call, &form, (7, 5)).place, place, "{among:?}");
        }
    }
}

#[test]
fn a_list_of_plans_is_refused_under_the_lowest_number_over_all_arguments() {
    let form = [1, 2, 4, 7, 8];
    let good = plan_bytes(&form, 8);
    let lists = [
        (&[1, 2, 4][..], 4),
        (&[1, 2, 4, 7, 8], 4),
        (&[1, 2, 4, 7, 8, 0], 4),
        (&[1, 2, 4, 7, 8, 0, 0, 0], 4),
        (&[1, 2, 4, 7, 16, 0, 0], 5),
        (&[1, 2, 4, 7, 8, 16, 0], 5),
        (&[1, 2, 4, 7, 8, 0, 1], 5),
        (&[1, 2, 3, 4, 7, 2, 0], 5),
        (&[1, 2, 3, 4, 7, 4, 0], 6),
        (&[1, 2, 4, 8, 8, 16, 0], 7),
        (&[1, 2, 4, 8, 0, 0, 0], 7),
    ];
    let plans = [
        (&good[..], 0),
        (&[1, 2, 4, 8, 0, 0], 4),
        (&[1, 2, 4, 16, 8, 0, 0], 5),
        (&[1, 2, 4, 7, 8, 1, 0], 5),
        (&[1, 2, 3, 4, 5, 20, 0], 6),
        (&[1, 2, 4, 8, 1, 0, 0], 7),
    ];
    for (list, number) in lists {
        for before in 0..3 {
            let among = [good.repeat(before), list.to_vec(), good.to_vec()].concat();
            for (plan, own) in plans {
                for lent in [(7, 5), (6, 5), (7, 0)] {
                    let call = Sought { n: 5, g: 1, form: Form::Columns, plan: plan.to_vec(), among: among.clone() };
                    let answer = compare_sought(&call, &form, lent);
                    assert_eq!(answer.number, if own == 0 { number } else { own.min(number) }, "{call:?}");
                }
            }
        }
    }
}

#[test]
fn damaged_plans_and_lists_are_refused_by_either_form_and_every_number_is_reached() {
    let mut random = Random::new(0x59);
    let mut reached = [[0; 9]; 2];
    for _ in 0..3_000 {
        let plan = sample(&mut random);
        let form = columns_or_runs(&mut random);
        let good = given(&mut random, &plan, form);
        let Given { n, g, list, .. } = if random.below(2) == 0 { damaged(&mut random, &good) } else { good };
        let mut among: Vec<u32> = (0..random.below(3)).flat_map(|_| any_plan(&mut random, plan.n, plan.m)).collect();
        if random.below(3) == 0 {
            let other = given(&mut random, &plan, Form::Columns);
            among.extend(damaged(&mut random, &other).list);
        }
        let short = random.below(4) == 0;
        let lent = if short { (random.below(plan.n + 3), random.below(plan.n + 1)) } else { places(&mut random, plan.n) };
        let call = Sought { n, g, form, plan: list, among };
        reached[usize::from(form == Form::Runs)][compare_sought(&call, &form_of(&call), lent).number as usize] += 1;
    }
    for number in [0, 1, 2, 4, 5, 6, 7, 8] {
        assert!(reached.iter().all(|by| by[number] > 0), "never answered {number}: {reached:?}");
    }
}

/// A plan of m basic factors in bytes, with any mask.
fn any_plan(random: &mut Random, n: usize, m: usize) -> Vec<u32> {
    let columns = columns(random, n, m);
    switched(random, &columns)
}

#[test]
fn several_plans_have_the_smallest_forms_of_the_checking_program_at_their_places() {
    let mut random = Random::new(0x5a);
    for _ in 0..150 {
        let Sample { n, m, .. } = sample(&mut random);
        let plans: Vec<u32> = (0..random.below(6)).flat_map(|_| any_plan(&mut random, n, m)).collect();
        let lent = places_each(&mut random, (plans.len(), plans.len()));
        assert_eq!(compare_plans(n, n - m, &plans, lent), 0);
    }
}

#[test]
fn several_plans_are_refused_as_one_and_no_form_is_written() {
    let mut random = Random::new(0x5b);
    let mut reached = [0; 9];
    for _ in 0..1_500 {
        let plan = sample(&mut random);
        let good = given(&mut random, &plan, Form::Columns);
        let bad = damaged(&mut random, &good);
        let mut plans: Vec<u32> = (0..random.below(4)).flat_map(|_| any_plan(&mut random, plan.n, plan.m)).collect();
        plans.extend(bad.list);
        plans.extend(if random.below(2) == 0 { good.list } else { Vec::new() });
        let least = plans.len().saturating_sub(2);
        let lent = if random.below(4) == 0 {
            (random.between(least, plans.len()), random.between(least, plans.len()))
        } else {
            places_each(&mut random, (plans.len(), plans.len()))
        };
        reached[compare_plans(bad.n, bad.g, &plans, lent) as usize] += 1;
    }
    for number in [0, 1, 2, 4, 5, 6, 7, 8] {
        assert!(reached[number] > 0, "never answered {number}: {reached:?}");
    }
}
