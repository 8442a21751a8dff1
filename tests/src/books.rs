//! Calls of the book's writer with guarded bytes, held against the checking program.

use crate::calls::{bytes, guarded, MARGIN};
use crate::check::book::{book, refusal};
use crate::check::plan::{plan_bytes, stride};
use crate::guarded::plan_write_book;

/// Plans by their columns, with mask 0, in bytes, one after another.
pub fn joined(plans: &[Vec<u32>]) -> Vec<u8> {
    plans.iter().flat_map(|columns| bytes(&plan_bytes(columns, 0))).collect()
}

/// The answer of a call with this many lent bytes, and the whole guarded list before and after it.
pub fn call_writer(n: usize, g: usize, r: usize, plans: &[u8], places: usize) -> ((u8, usize), Vec<u8>, Vec<u8>) {
    let before = bytes(&guarded(places));
    let mut lent = before.clone();
    let given = plans.to_vec();
    let answer = plan_write_book(n, g, r, plans, &mut lent[MARGIN..MARGIN + places]);
    assert_eq!(given, plans, "a call changed what it reads");
    ((answer.number, answer.count), before, lent)
}

/// Compares one accepted call with the book that is expected: the answer and every byte of the list.
pub fn compare_written(n: usize, g: usize, r: usize, plans: &[u8], places: usize, expected: &[u8]) {
    let (answer, before, after) = call_writer(n, g, r, plans, places);
    assert_eq!(answer, (0, expected.len()), "the answer for {n} {g} {r}, {} bytes of plans, {places} places", plans.len());
    let mut list = before;
    list[MARGIN..MARGIN + expected.len()].copy_from_slice(expected);
    assert!(after == list, "the book for {n} {g} {r}, {plans:?}: {:?}, not {expected:?}", &after[MARGIN..MARGIN + expected.len()]);
}

/// Compares one refused call: the number, no bytes, and the list untouched.
pub fn compare_refused(n: usize, g: usize, r: usize, plans: &[u8], places: usize, number: u8) {
    let (answer, before, after) = call_writer(n, g, r, plans, places);
    assert_eq!(answer, (number, 0), "the answer for {n} {g} {r}, {} bytes of plans, {places} places", plans.len());
    assert!(after == before, "a refused call touched its list: {n} {g} {r}, {places} places");
}

/// Compares the calls for plans that are in order, with bytes to spare, just enough, and one too few or none.
pub fn compare_book(n: usize, g: usize, r: usize, plans: &[Vec<u32>]) {
    let expected = book(n, g, r, plans);
    let given = joined(plans);
    for places in [expected.len(), expected.len() + 1, expected.len() + 100] {
        compare_written(n, g, r, &given, places, &expected);
    }
    compare_refused(n, g, r, &given, expected.len() - 1, 8);
    compare_refused(n, g, r, &given, 0, 8);
}

/// Compares one call on any bytes with the checking program's refusal. Returns the number.
pub fn compare_any(n: usize, g: usize, r: usize, plans: &[u8], places: usize) -> u8 {
    let number = refusal(n, g, r, plans, places);
    if number != 0 {
        compare_refused(n, g, r, plans, places, number);
        return number;
    }
    let lists: Vec<Vec<u32>> = plans.chunks(stride(n)).map(|plan| plan[..n].iter().map(|&column| column.into()).collect()).collect();
    compare_written(n, g, r, plans, places, &book(n, g, r, &lists));
    0
}
