//! Calls of the book's reader with guarded lists, held against the checking program.

use crate::books::joined;
use crate::calls::{bytes, guarded, MARGIN};
use crate::check::plan::stride;
use crate::check::reading::{judge, Judged};
use crate::guarded::plan_read_book;
use planner::Book;

/// The answer of a call with a list of this many places, and the whole guarded list before and after it.
fn call_reader(book: &[u8], places: usize) -> (Book, Vec<u8>, Vec<u8>) {
    let before = bytes(&guarded(places));
    let mut lent = before.clone();
    let answer = plan_read_book(book, &mut lent[MARGIN..MARGIN + places]);
    (answer, before, lent)
}

/// The start of a book, to be printed.
fn start(book: &[u8]) -> String {
    const SHOWN: usize = 200;
    format!("{} bytes {:02x?}", book.len(), &book[..book.len().min(SHOWN)])
}

/// Compares one accepted call: N, G, R and the count, the entries, in bytes, at the first places of the list, and every other byte of it as
/// before.
pub fn compare_taken(book: &[u8], places: usize, [n, g, r]: [usize; 3], plans: &[u8]) {
    let (answer, before, after) = call_reader(book, places);
    let [factors, generators, resolution] = [n, g, r].map(|size| size as u8);
    let expected = Book { number: 0, factors, generators, resolution, count: plans.len() / stride(n) };
    assert_eq!(answer, expected, "the answer with {places} places for {}", start(book));
    let mut list = before;
    list[MARGIN..MARGIN + plans.len()].copy_from_slice(plans);
    assert!(after == list, "the list of {places} places after {}", start(book));
}

/// Compares one refused call: the number and nothing else, and the list untouched.
pub fn compare_refused(book: &[u8], places: usize, number: u8) {
    let (answer, before, after) = call_reader(book, places);
    let expected = Book { number, factors: 0, generators: 0, resolution: 0, count: 0 };
    assert_eq!(answer, expected, "the answer with {places} places for {}", start(book));
    assert!(after == before, "a refused call touched its list of {places} places: {}", start(book));
}

/// Compares one call with what the checks find in the book. Returns the number.
pub fn compare_judged(book: &[u8], judged: &Judged, places: usize) -> u8 {
    match judged.read(places) {
        Ok((header, entries)) => {
            compare_taken(book, places, [header.n, header.g, header.r], &joined(entries));
            0
        }
        Err(number) => {
            compare_refused(book, places, number);
            number
        }
    }
}

/// Compares one call on any bytes with the checking program. Returns the number.
pub fn compare_read(book: &[u8], places: usize) -> u8 {
    compare_judged(book, &judge(book), places)
}
