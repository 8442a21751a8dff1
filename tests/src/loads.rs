//! Calls for loads with guarded lists, held against the checking program.

use crate::calls::{bytes, guarded, MARGIN};
use crate::check::load::{load, refusal, Draws};
use crate::check::plan::{plan_bytes, stride};
use crate::guarded::{plan_compare_columns, plan_load, plan_smallest_of_columns};
use planner::{State, PLAN_SAME};

/// Every size that has a load: N and G.
pub fn every_size() -> Vec<(usize, usize)> {
    (1..=7).flat_map(|m| (m..=16.min((1 << m) - 1)).map(move |n| (n, n - m))).collect()
}

/// Compares one call, with a list of this many places, with the checking program: the number, the state, and every place of the list. Returns
/// the number.
pub fn compare_load(n: usize, g: usize, seed: u32, places: usize) -> u8 {
    let number = match refusal(n, g) {
        0 if places < stride(n) => 8,
        number => number,
    };
    let mut expected = bytes(&guarded(places));
    let mut lent = expected.clone();
    let answer = plan_load(n, g, seed, &mut lent[MARGIN..MARGIN + places]);
    let mut draws = Draws::new(seed);
    if number == 0 {
        let plan = plan_bytes(&load(n, g, &mut draws).columns, 0);
        expected[MARGIN..MARGIN + stride(n)].copy_from_slice(&bytes(&plan));
    }
    assert_eq!(answer, State { number, state: draws.state() }, "the load of {seed}, {n} {g}, with {places} places");
    assert_eq!(lent, expected, "the list of {places} places after the load of {seed}, {n} {g}");
    number
}

/// The load of a seed by the library, in bytes, and the state after it. Fails if it is refused.
pub fn loaded(n: usize, g: usize, seed: u32) -> (Vec<u8>, u32) {
    let mut plan = vec![0xee; stride(n)];
    let answer = plan_load(n, g, seed, &mut plan);
    assert_eq!(answer.number, 0, "the load of {seed}, {n} {g}");
    (plan, answer.state)
}

/// The smallest form of a plan in bytes, in bytes. Fails unless the comparison finds the plan the same as its smallest form, with no switch.
pub fn confirmed_form(n: usize, g: usize, plan: &[u8]) -> Vec<u8> {
    let (mut form, mut names) = (vec![0xee; stride(n)], vec![0xee; n]);
    let answer = plan_smallest_of_columns(n, g, plan, &[], &mut form, &mut names);
    assert_eq!((answer.number, answer.mask), (0, 0), "the smallest form of {plan:?}, {n} {g}");
    assert_eq!(plan_compare_columns(n, g, plan, &form, &mut names), PLAN_SAME, "{plan:?} and {form:?}, {n} {g}");
    form
}
