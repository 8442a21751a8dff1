//! Calls for catalogues with guarded lists, held against the checking program.

use crate::calls::{bytes, guarded, MARGIN};
use crate::check::counting::{linear_maps, sets_of_rank};
use crate::check::plan::{plan_bytes, stride};
use crate::check::refusals::of_sizes;
use crate::check::smallest::{no_word_below, smallest, smallest_and_orders};
use crate::guarded::{plan_catalogue, plan_pattern_of_columns};
use crate::known::every_plan;
use std::collections::BTreeSet;

/// An accepted catalogue's answer is this and its entry count.
const ENTRIES: u32 = 0x1_0000;

/// The answer of a list that has not enough room.
const NO_ROOM: u32 = 9;

/// The entries of a catalogue, each by its columns.
pub type Entries = Vec<Vec<u32>>;

/// The smallest form of every plan of n factors, m of them basic, in dictionary order.
pub fn every_smallest_form(n: usize, m: usize) -> Entries {
    let rising = |mut columns: Vec<u32>| {
        columns.sort();
        columns
    };
    let lists: BTreeSet<Vec<u32>> = every_plan(n, m).into_iter().map(rising).collect();
    let forms: BTreeSet<Vec<u32>> = lists.iter().map(|list| smallest(m, list)).collect();
    forms.into_iter().collect()
}

/// The forms without a word of fewer than r letters.
pub fn with_resolution(forms: &[Vec<u32>], r: usize) -> Entries {
    forms.iter().filter(|form| no_word_below(r, form)).cloned().collect()
}

/// The answer as one number: `ENTRIES` and the entry count if accepted, else the refusal's. Fails unless a refused call counts the entries that
/// it leaves in the list.
fn answered(found: planner::Entries, n: usize, places: usize) -> u32 {
    let (number, count) = (u32::from(found.number), found.count);
    let left = if number == NO_ROOM { places / stride(n) } else { 0 };
    assert!(number == 0 || count == left, "refused by {number} with {count} entries in {places} places");
    if number == 0 {
        ENTRIES + u32::try_from(count).expect("fewer than 2^32 entries")
    } else {
        number
    }
}

/// The answer of a catalogue's call with a list of this many places, and the whole guarded list before and after it.
pub fn call_catalogue(n: usize, g: usize, r: usize, places: usize) -> (u32, Vec<u32>, Vec<u32>) {
    let before = guarded(places);
    let mut lent = bytes(&before);
    let answer = answered(plan_catalogue(n, g, r, &mut lent[MARGIN..MARGIN + places]), n, places);
    (answer, before, lent.iter().map(|&column| column.into()).collect())
}

/// Compares one call, with a list of this many places, with the entries of its catalogue: the answer and every place of the list. Each entry
/// has mask 0.
pub fn compare_catalogue(n: usize, g: usize, r: usize, entries: &Entries, places: usize) {
    let (answer, before, after) = call_catalogue(n, g, r, places);
    let room = places / stride(n);
    let expected = if entries.len() > room { NO_ROOM } else { ENTRIES + entries.len() as u32 };
    let mut list = before;
    for (k, entry) in entries.iter().take(room).enumerate() {
        list[MARGIN + k * stride(n)..MARGIN + (k + 1) * stride(n)].copy_from_slice(&plan_bytes(entry, 0));
    }
    assert_eq!(answer, expected, "the answer for {n} {g} {r} with {places} places");
    assert_eq!(after, list, "the list for {n} {g} {r} with {places} places");
}

/// The number under which the sizes of a catalogue are refused, 0 if they are not.
pub fn refusal(n: usize, g: usize, r: usize) -> u8 {
    match of_sizes(n, g) {
        0 if !(3..=16).contains(&r) => 3,
        number => number,
    }
}

/// Compares one call whose sizes are refused.
pub fn compare_refused(n: usize, g: usize, r: usize, places: usize) {
    let (answer, before, after) = call_catalogue(n, g, r, places);
    assert_eq!(answer, u32::from(refusal(n, g, r)), "the answer for {n} {g} {r}");
    assert_eq!(after, before, "a refused call touched its list: {n} {g} {r}");
}

/// The columns of the entries that one call gives: all of them, or the first ones where the list has room for no more than these. Fails if it
/// touches anything else, or gives a mask other than 0.
pub fn entries(n: usize, g: usize, r: usize, room: usize) -> (bool, Entries) {
    let (answer, before, after) = call_catalogue(n, g, r, room * stride(n));
    let count = if answer == NO_ROOM { room } else { answer.checked_sub(ENTRIES).expect("accepted, or refused by 9") as usize };
    let end = MARGIN + count * stride(n);
    assert!(count <= room && before[..MARGIN] == after[..MARGIN] && before[end..] == after[end..], "{n} {g} {r}: {answer:#x}");
    let columns = |entry: &[u32]| {
        assert_eq!(entry[n..], [0, 0], "the mask of an entry of {n} {g} {r}: {entry:?}");
        entry[..n].to_vec()
    };
    (answer != NO_ROOM, after[MARGIN..end].chunks(stride(n)).map(columns).collect())
}

/// The catalogue of a size as the library gives it, which has no more entries than this. Fails unless each is a smallest form by the
/// checking program, has no word below R, and stands after the one before it; for R 3, unless every set of n columns of rank m has its form
/// among them.
pub fn catalogue(n: usize, m: usize, r: usize, most: usize) -> Entries {
    let (whole, entries) = entries(n, n - m, r, most);
    assert!(whole, "{n} {} {r} has more than {most} entries", n - m);
    let sets = confirm_entries(m, r, &entries);
    assert!(r > 3 || sets == sets_of_rank(n, m), "{n} {} {r}: {sets} sets of columns have an entry", n - m);
    entries
}

/// Fails unless these are smallest forms in dictionary order, without a word below r. Returns how many sets of columns have one of them as
/// their smallest form: the linear maps turn a form into each of its sets as often as the form has renamings onto itself.
pub fn confirm_entries(m: usize, r: usize, entries: &[Vec<u32>]) -> u128 {
    let mut sets = 0;
    for (k, entry) in entries.iter().enumerate() {
        assert!(k == 0 || entries[k - 1] < *entry, "entry {k} is not after the one before it: {entry:?}");
        assert!(no_word_below(r, entry), "entry {k} has a word below {r}: {entry:?}");
        let (form, orders) = smallest_and_orders(m, entry);
        assert_eq!(form, *entry, "entry {k} is not a smallest form");
        sets += linear_maps(m) / orders as u128;
    }
    sets
}

/// How many different beginnings, from length 3 to m, the patterns of these plans have, and how many different patterns. Fails unless each
/// counts 2^G - 1 words.
pub fn patterns_and_beginnings(m: usize, entries: &Entries) -> (usize, usize) {
    let mut whole = BTreeSet::new();
    for entry in entries {
        let (n, mut pattern) = (entry.len(), vec![0; entry.len()]);
        assert_eq!(plan_pattern_of_columns(n, n - m, &bytes(&plan_bytes(entry, 0)), &mut pattern), 0, "{entry:?}");
        assert_eq!(pattern.iter().sum::<u16>(), (1 << (n - m)) - 1, "{entry:?}: {pattern:?}");
        whole.insert(pattern);
    }
    let beginnings: BTreeSet<&[u16]> = whole.iter().map(|pattern| &pattern[2.min(m)..m]).collect();
    (beginnings.len(), whole.len())
}
