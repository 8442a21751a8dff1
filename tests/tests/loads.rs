//! Loads of plans from a seed: the examples, every size and many seeds, loads in a row, refusals; each is a plan in order and the same as the plan
//! before swapping, and has its place in the catalogue.

use plan_tests::catalogues::{catalogue, every_smallest_form, Entries};
use plan_tests::check::load::{load, Draws, Load};
use plan_tests::check::plan::{plan_bytes, stride, Given};
use plan_tests::check::refusals::accepted;
use plan_tests::check::renamings::is_witness;
use plan_tests::check::runs::runs_of_columns;
use plan_tests::check::smallest::smallest;
use plan_tests::guarded::*;
use plan_tests::loads::{compare_load, confirmed_form, every_size, loaded};
use plan_tests::random::Random;
use planner::{Signs, State, PLAN_NO, PLAN_SAME, PLAN_YES};
use std::collections::BTreeSet;

/// What a draw adds to the state.
const STEP: u32 = 2_654_435_769;

/// The largest seed whose first sum has no carry; that of the next one is 0.
const NO_CARRY: u32 = u32::MAX - STEP;

/// Seeds at the bounds of 32 bits, of the first sum, and of the shift.
const BOUNDS: [u32; 10] =
    [0, 1, u32::MAX, u32::MAX - 1, NO_CARRY, NO_CARRY + 1, NO_CARRY + 2, 1 << 31, NO_CARRY + (1 << 15), NO_CARRY + (1 << 15) + 1];

/// Sizes far beyond those that have plans, also such that have the last digits of one that has.
const HUGE: [usize; 11] = [21, 255, 256, 261, (1 << 16) + 5, 1 << 32, (1 << 32) + 5, 1 << 63, usize::MAX - 15, usize::MAX - 1, usize::MAX];

fn any_seed(random: &mut Random) -> u32 {
    random.draw() as u32
}

fn bytes_of(columns: &[u32]) -> Vec<u8> {
    plan_bytes(columns, 0).iter().map(|&byte| byte as u8).collect()
}

/// The load of a seed by the checking program.
fn drawn(n: usize, g: usize, seed: u32) -> Load {
    load(n, g, &mut Draws::new(seed))
}

#[test]
fn seed_0_draws_2654356951_then_1013877679_then_3668432999() {
    let mut draws = Draws::new(0);
    assert_eq!([(); 3].map(|_| draws.draw()), [2_654_356_951, 1_013_877_679, 3_668_432_999]);
}

#[test]
fn four_seeds_have_the_loads_and_states_that_were_worked_out_beforehand() {
    let known: [(u32, usize, usize, &[u32], u32); 4] = [
        (0, 5, 1, &[4, 2, 1, 8, 3], 387_276_957),
        (1, 7, 3, &[2, 5, 8, 14, 1, 4, 9], 2_415_085_442),
        (7, 15, 11, &[13, 3, 11, 9, 12, 2, 14, 10, 8, 7, 1, 15, 5, 4, 6], 1_936_384_792),
        (0, 1, 0, &[1], 0),
    ];
    for (seed, n, g, columns, state) in known {
        assert_eq!(loaded(n, g, seed), (bytes_of(columns), state), "{seed}, {n} {g}");
        let mut draws = Draws::new(seed);
        assert_eq!((load(n, g, &mut draws).columns, draws.state()), (columns.to_vec(), state), "{seed}, {n} {g}");
    }
}

#[test]
fn eight_factors_in_eight_runs_are_refused_under_7_and_seven_are_not() {
    let mut plan = [99; 10];
    assert_eq!(plan_load(8, 5, 4, &mut plan), State { number: 7, state: 4 });
    assert_eq!(plan, [99; 10]);
    assert_eq!(plan_load(7, 4, 4, &mut plan).number, 0);
    assert_eq!(plan[..7].iter().collect::<BTreeSet<_>>(), [1, 2, 3, 4, 5, 6, 7].iter().collect());
    assert_eq!(plan[7..], [0, 0, 99]);
}

#[test]
fn every_size_has_a_load_or_is_refused_under_1_or_2_or_else_7_whatever_the_seed() {
    let sizes: Vec<usize> = (0..=18).chain(HUGE).collect();
    let mut reached = [0; 9];
    for (n, g) in sizes.iter().flat_map(|&n| sizes.iter().map(move |&g| (n, g))) {
        for seed in BOUNDS {
            reached[usize::from(compare_load(n, g, seed, 20))] += 1;
        }
    }
    assert_eq!(every_size().len(), 53);
    // more factors than columns: 2 to 16 with M 1, 4 to 16 with M 2, 8 to 16 with M 3, and 16 with M 4
    assert_eq!((reached[0], reached[7]), (53 * BOUNDS.len(), (15 + 13 + 9 + 1) * BOUNDS.len()), "{reached:?}");
    assert_eq!(reached[1], (sizes.len() - 16) * sizes.len() * BOUNDS.len(), "{reached:?}");
    assert_eq!(reached[8], 0, "{reached:?}");
}

#[test]
fn a_list_of_fewer_than_n_plus_2_places_is_refused_under_8_unless_1_2_or_7_applies_and_nothing_past_them_is_touched() {
    let mut random = Random::new(0x10ad);
    let mut reached = [0; 9];
    for (n, g) in (0..=18).flat_map(|n| (0..=18).map(move |g| (n, g))) {
        for places in (0..=n + 6).chain([100, 5_000]) {
            for seed in [0, u32::MAX, any_seed(&mut random)] {
                let number = compare_load(n, g, seed, places);
                assert!(number != 8 || places < n + 2, "{n} {g} with {places} places");
                reached[usize::from(number)] += 1;
            }
        }
    }
    // with each of 0 to N + 1 places
    let short: usize = every_size().iter().map(|(n, _)| 3 * (n + 2)).sum();
    assert_eq!(reached[8], short, "{reached:?}");
    assert!([0, 1, 2, 7].iter().all(|&number| reached[number] > 1_000), "{reached:?}");
}

#[test]
fn a_refused_call_hands_the_seed_back_and_leaves_the_list() {
    let mut random = Random::new(0x2ef5);
    let refused = [(0, 0, 20, 1), (17, 11, 20, 1), (usize::MAX, usize::MAX, 20, 1), (5, 5, 20, 2), (9, 1, 20, 2), (16, usize::MAX, 20, 2)];
    let crowded = [(8, 5, 20, 7), (16, 12, 20, 7), (2, 1, 20, 7), (16, 12, 0, 7), (4, 2, 5, 7)];
    let short = [(5, 1, 6, 8), (16, 9, 17, 8), (1, 0, 2, 8), (7, 4, 0, 8)];
    for (n, g, places, number) in refused.into_iter().chain(crowded).chain(short) {
        for seed in BOUNDS.into_iter().chain((0..100).map(|_| any_seed(&mut random))) {
            for filling in [0, 1, 0x5a, 0xff] {
                let mut plan = vec![filling; places];
                assert_eq!(plan_load(n, g, seed, &mut plan), State { number, state: seed }, "{n} {g} with {places} places");
                assert_eq!(plan, vec![filling; places], "{n} {g} with {places} places, seed {seed}");
            }
        }
    }
}

#[test]
fn every_size_with_20_000_seeds_has_the_loads_and_states_of_the_checking_program() {
    let mut random = Random::new(0x5eed);
    for (n, g) in every_size() {
        for seed in BOUNDS.into_iter().chain(2..5_000).chain((0..15_000).map(|_| any_seed(&mut random))) {
            assert_eq!(compare_load(n, g, seed, stride(n)), 0);
        }
    }
}

#[test]
fn loads_in_a_row_go_on_from_the_state_of_the_one_before() {
    for (n, g) in every_size() {
        for seed in BOUNDS {
            let (mut state, mut draws) = (seed, Draws::new(seed));
            for _ in 0..200 {
                let expected = load(n, g, &mut draws);
                let (plan, next) = loaded(n, g, state);
                assert_eq!((plan, next), (bytes_of(&expected.columns), draws.state()), "from {seed}, at {state}, {n} {g}");
                state = next;
            }
            // each load has a draw for each later factor and one for each swap
            let all = STEP.wrapping_mul(200 * (g + n - 1) as u32);
            assert_eq!(state, seed.wrapping_add(all), "from {seed}, {n} {g}");
        }
    }
}

#[test]
fn loads_of_all_sizes_in_a_row_take_their_draws_from_one_state() {
    let mut random = Random::new(0x3a11);
    let sizes = every_size();
    let (mut state, mut draws) = (6, Draws::new(6));
    for _ in 0..20_000 {
        let (n, g) = sizes[random.below(sizes.len())];
        let expected = load(n, g, &mut draws);
        let (plan, next) = loaded(n, g, state);
        assert_eq!((plan, next), (bytes_of(&expected.columns), draws.state()), "{n} {g} at {state}");
        state = next;
    }
}

/// The columns of a load in every call that takes a plan in bytes: alone, as the second of two, and in a list.
fn assert_taken(n: usize, g: usize, plan: &[u8]) {
    let (mut words, mut runs, mut counts) = (vec![0; g], vec![0xeeee; 1 << (n - g)], vec![0; n + 1]);
    let (mut pattern, mut resolution) = (vec![0xeeee; n], [0]);
    assert_eq!(plan_words_of_columns(n, g, plan, &mut words), Signs { number: 0, signs: 0 }, "{plan:?}, {n} {g}");
    let numbers = [
        plan_runs_of_columns(n, g, plan, &mut runs),
        plan_pattern_of_columns(n, g, plan, &mut pattern),
        plan_resolution_of_columns(n, g, plan, &mut resolution),
        plan_distances_of_columns(n, g, plan, &mut counts),
        plan_smallest_of_plans(n, g, &plan.repeat(2), &mut vec![0; 2 * stride(n)], &mut vec![0; 2 * stride(n)]),
        plan_smallest_of_columns(n, g, plan, plan, &mut vec![0; stride(n)], &mut vec![0; n]).number,
        plan_write_book(n, g, 3, plan, &mut [0; 60]).number,
    ];
    assert_eq!(numbers, [0; 7], "{plan:?}, {n} {g}");
    assert_eq!(plan_compare_columns(n, g, plan, plan, &mut vec![0; n]), PLAN_SAME, "{plan:?}, {n} {g}");
    // a full factorial has no words: its resolution is N + 1, of one factor 2
    assert!(resolution[0] >= 3 || (n, g, resolution) == (1, 0, [2]), "resolution {resolution:?} of {plan:?}, {n} {g}");
    assert!(pattern.iter().take(2).all(|&count| count == 0), "pattern {pattern:?} of {plan:?}, {n} {g}");
    assert_eq!(runs[0], 0, "with mask 0 the first run has everything high: {plan:?}, {n} {g}");
}

#[test]
fn every_load_is_taken_by_every_call_on_plans_in_bytes_and_has_mask_0_and_no_word_below_three_letters() {
    let mut random = Random::new(0x7a4e);
    for (n, g) in every_size() {
        for turn in 0..200 {
            let (plan, _) = loaded(n, g, any_seed(&mut random));
            assert_eq!(plan[n..], [0, 0], "the mask of {plan:?}, {n} {g}");
            assert_taken(n, g, &plan);
            if turn < 8 {
                let columns: Vec<u32> = plan[..n].iter().map(|&column| column.into()).collect();
                assert!(accepted(&Given::columns(n, g, &columns, 0)).is_ok(), "{plan:?}, {n} {g}");
            }
        }
    }
}

/// The run table of a plan in bytes.
fn table(n: usize, g: usize, plan: &[u8]) -> Vec<u16> {
    let mut runs = vec![0xeeee; 1 << (n - g)];
    assert_eq!(plan_runs_of_columns(n, g, plan, &mut runs), 0, "{plan:?}, {n} {g}");
    runs
}

#[test]
fn every_load_is_the_same_as_the_plan_before_swapping_and_the_swaps_are_a_witness_without_switches() {
    let mut random = Random::new(0x5a9e);
    let mut others = 0;
    for (n, g) in every_size() {
        for _ in 0..100 {
            let seed = any_seed(&mut random);
            let Load { before, places, .. } = drawn(n, g, seed);
            let (plan, unswapped) = (loaded(n, g, seed).0, bytes_of(&before));
            assert_eq!(plan_compare_columns(n, g, &plan, &unswapped, &mut vec![0; n]), PLAN_SAME, "{plan:?} of {seed}, {n} {g}");
            let (first, second) = (table(n, g, &plan), table(n, g, &unswapped));
            let names: Vec<u8> = places.iter().map(|&place| place as u8).collect();
            assert_eq!(plan_check_witness(n, g, &first, &second, &names, 0), PLAN_YES, "{names:?} from {plan:?} of {seed}, {n} {g}");
            let columns: Vec<u32> = plan[..n].iter().map(|&column| column.into()).collect();
            let runs = [&columns, &before].map(|columns| runs_of_columns(n - g, columns));
            assert!(is_witness(n, &runs[0], &runs[1], &places, 0), "{places:?} from {plan:?} of {seed}, {n} {g}");
            let unmoved: Vec<u8> = (0..n as u8).collect();
            others += usize::from(plan_check_witness(n, g, &first, &second, &unmoved, 0) == PLAN_NO);
        }
    }
    assert!(others > 2_000, "of {others} loads the factors as they stand are no witness");
}

#[test]
fn loads_of_every_size_are_the_same_as_their_smallest_forms_which_are_those_of_the_plans_before_swapping() {
    let mut random = Random::new(0x5f02);
    let mut forms = BTreeSet::new();
    for (n, g) in every_size() {
        for turn in 0..100 {
            let seed = any_seed(&mut random);
            let (plan, before) = (loaded(n, g, seed).0, drawn(n, g, seed).before);
            let form = confirmed_form(n, g, &plan);
            assert_eq!(form, confirmed_form(n, g, &bytes_of(&before)), "{plan:?} of {seed}, {n} {g}");
            if turn < 8 {
                assert_eq!(form, bytes_of(&smallest(n - g, &before)), "{plan:?} of {seed}, {n} {g}");
            }
            forms.insert((g, form));
        }
    }
    assert!(forms.len() > 1_000, "{} different smallest forms", forms.len());
}

/// The places of loads in a catalogue whose entries the checking program has: each is found, and is the one of the checking program's own form.
/// Returns how many entries were met.
fn places_met(random: &mut Random, n: usize, g: usize, entries: &Entries, loads: usize) -> usize {
    let mut list = vec![0xee; entries.len() * stride(n)];
    let found = plan_catalogue(n, g, 3, &mut list);
    assert_eq!((found.number, found.count), (0, entries.len()), "{n} {g}");
    let mut met = BTreeSet::new();
    for _ in 0..loads {
        let seed = any_seed(random);
        let form = smallest(n - g, &drawn(n, g, seed).columns);
        let place = entries.binary_search(&form).expect("every plan has an entry") + 1;
        let (plan, _) = loaded(n, g, seed);
        let answer = plan_smallest_of_columns(n, g, &plan, &list, &mut vec![0; stride(n)], &mut vec![0; n]);
        assert_eq!((answer.number, answer.place), (0, place), "{plan:?} of {seed}, {n} {g}");
        met.insert(place);
    }
    met.len()
}

#[test]
fn a_load_of_up_to_7_factors_stands_where_the_checking_program_has_it_in_the_catalogue_and_every_entry_is_met() {
    let mut random = Random::new(0xca7a);
    for (n, g) in every_size().into_iter().filter(|&(n, _)| n <= 7) {
        let entries = every_smallest_form(n, n - g);
        assert_eq!(places_met(&mut random, n, g, &entries, 2_000), entries.len(), "{n} {g}");
    }
}

#[test]
fn loads_of_some_larger_sizes_stand_where_the_checking_program_has_them_in_the_catalogue() {
    let mut random = Random::new(0xca7b);
    for (n, m) in [(8, 4), (8, 7), (9, 5), (9, 6), (10, 4), (10, 6), (11, 5), (15, 4), (16, 5)] {
        let entries = catalogue(n, m, 3, 1_000);
        let met = places_met(&mut random, n, n - m, &entries, 50);
        assert!(met > 1 || entries.len() == 1, "{met} of {} entries, {n} {}", entries.len(), n - m);
    }
}
