//! Random books of entries, as they are or damaged in many ways.

use crate::check::book::book;
use crate::known::in_other_basics;
use crate::random::Random;

/// The bytes of a header.
const HEADER: usize = 6;

/// Some of the entries, in their order: at most so many.
pub fn some_of(random: &mut Random, entries: &[Vec<u32>], most: usize) -> Vec<Vec<u32>> {
    let mut places: Vec<u32> = (0..entries.len() as u32).collect();
    random.shuffle(&mut places);
    places.truncate(random.below(most + 1));
    places.sort();
    places.iter().map(|&place| entries[place as usize].clone()).collect()
}

/// Changes the entries, of which there are some: two in each other's place, one twice, one written by other basic factors or in another order,
/// or with another column.
fn change_entries(random: &mut Random, m: usize, entries: &mut Vec<Vec<u32>>) {
    let (i, j) = (random.below(entries.len()), random.below(entries.len()));
    let factor = random.below(entries[i].len());
    match random.below(5) {
        0 => entries.swap(i, j),
        1 => entries.insert(i, entries[j].clone()),
        2 => {
            entries[i] = in_other_basics(random, m, &entries[i]);
            entries[i].sort();
        }
        3 => random.shuffle(&mut entries[i]),
        _ => entries[i][factor] = random.below((1 << m) + 1) as u32,
    }
}

/// Changes the bytes of a book: one of them, a bit, a byte of the header by 1, one more or one fewer, or cut off.
fn change_bytes(random: &mut Random, book: &mut Vec<u8>) {
    let place = random.below(book.len());
    match random.below(7) {
        0 => book[place] = random.below(256) as u8,
        1 => book[place] ^= 1 << random.below(8),
        2 => book[place % HEADER] = book[place % HEADER].wrapping_add(1),
        3 => book[place % HEADER] = book[place % HEADER].wrapping_sub(1),
        4 => book.insert(place, random.below(256) as u8),
        5 => book.push(random.below(256) as u8),
        _ => book.truncate(place),
    }
}

/// The book of entries of m basic factors without a word below r, as it is, or with other entries, for another R, or with other bytes.
pub fn drawn(random: &mut Random, n: usize, m: usize, r: usize, entries: &[Vec<u32>]) -> Vec<u8> {
    let mut entries = entries.to_vec();
    let kind = random.below(6);
    if kind == 1 && !entries.is_empty() {
        change_entries(random, m, &mut entries);
    }
    let wanted = if kind == 2 { r + 1 } else { r };
    let mut bytes = book(n, n - m, wanted, &entries);
    if kind > 2 {
        change_bytes(random, &mut bytes);
    }
    bytes
}
