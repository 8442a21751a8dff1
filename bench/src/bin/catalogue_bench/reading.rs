//! Books read, against the catalogues that make their entries.

use crate::library::{catalogue, fill, sizes, stride, Size};
use crate::timing::{fastest, time, PASSES};
use planner::{plan_read_book, plan_write_book};

/// The most entries of a book.
const MOST: usize = 65_535;

/// The largest catalogue, of which a book takes the first entries, and whole ones: of few entries and of many, of low and of high resolution.
const LARGEST: Size = (16, 9, 3);
const WHOLE: [Size; 17] = [
    (5, 1, 3),
    (8, 1, 6),
    (9, 2, 3),
    (9, 4, 3),
    (10, 5, 3),
    (11, 4, 5),
    (12, 5, 4),
    (12, 6, 3),
    (13, 8, 4),
    (14, 7, 3),
    (14, 7, 4),
    (15, 10, 3),
    (15, 11, 3),
    (16, 9, 4),
    (16, 10, 3),
    (16, 11, 3),
    (16, 11, 4),
];

/// The book of these entries.
fn written((n, g, r): Size, entries: &[u8]) -> Vec<u8> {
    let mut book = vec![0; 6 + entries.len() / stride(n) * 3 * n.max(2)];
    let bytes = plan_write_book(n, g, r, entries, &mut book);
    assert_eq!(bytes.number, 0, "the entries are accepted");
    book.truncate(bytes.count);
    book
}

/// Reads a book that is accepted; answers how many entries it has.
fn read(book: &[u8], list: &mut [u8]) -> usize {
    let found = plan_read_book(book, list);
    assert_eq!(found.number, 0, "the book is accepted");
    found.count
}

/// The row of a size, of which these are the first entries or all.
fn print_row(size: Size, entries: &[u8]) {
    let (n, g, r) = size;
    let book = written(size, entries);
    let mut list = vec![0; entries.len()];
    assert_eq!(read(&book, &mut list), entries.len() / stride(n));
    assert!(list == entries, "the book of {n} {g} {r} has other entries");
    let (mut made, mut reading) = (f64::INFINITY, f64::INFINITY);
    for _ in 0..PASSES {
        made = made.min(time(|| fill(size, &mut list)).1);
        reading = reading.min(time(|| read(&book, &mut list)).1);
    }
    let count = entries.len() / stride(n);
    println!("| {n} | {g} | {r} | {count} | {} | {:.3} | {:.3} | {:.2} |", book.len(), made * 1e3, reading * 1e3, reading / made);
}

/// How long each entry takes in a book of its own.
fn alone(size: Size, entries: &[u8]) -> Vec<f64> {
    let mut list = vec![0; stride(size.0)];
    let one = |entry: &[u8]| {
        let book = written(size, entry);
        fastest(|| assert_eq!(read(&book, &mut list), 1))
    };
    entries.chunks(stride(size.0)).map(one).collect()
}

/// The entry that takes longest, of all sizes.
fn print_slowest_entry() {
    let (mut count, mut slowest) = (0, (0.0, String::new()));
    for (n, g) in sizes() {
        let entries = catalogue((n, g, 3));
        for (seconds, entry) in alone((n, g, 3), &entries).into_iter().zip(entries.chunks(stride(n))) {
            count += 1;
            if seconds > slowest.0 {
                slowest = (seconds, format!("N {n}, G {g}, columns {:?}", &entry[..n]));
            }
        }
    }
    let (seconds, entry) = slowest;
    println!("\nEvery entry of every size, R 3, in a book of its own, {count} books: the slowest takes {:.1} µs ({entry}).", seconds * 1e6);
}

/// The book of those entries of the largest catalogue that take longest, in their order, against the making of its first entries.
fn print_slowest_book(first: &mut [u8]) {
    let entries = catalogue(LARGEST);
    let times = alone(LARGEST, &entries);
    let mut places: Vec<usize> = (0..times.len()).collect();
    places.sort_by(|&one, &other| times[other].total_cmp(&times[one]));
    places.truncate(MOST);
    places.sort();
    let slow: Vec<u8> = places.iter().flat_map(|&i| &entries[i * stride(LARGEST.0)..(i + 1) * stride(LARGEST.0)]).copied().collect();
    let book = written(LARGEST, &slow);
    let mut list = vec![0; slow.len()];
    let reading = fastest(|| assert_eq!(read(&book, &mut list), MOST));
    let made = fastest(|| assert_eq!(fill(LARGEST, first), None));
    println!(
        "The book of the {MOST} slowest entries of {} {} {}: {:.0} ms, {:.2} times as long as making the first {MOST}.",
        LARGEST.0,
        LARGEST.1,
        LARGEST.2,
        reading * 1e3,
        reading / made
    );
}

pub fn print() {
    println!("| N | G | R | entries | bytes | catalogue, ms | reading, ms | reading / catalogue |");
    println!("|---|---|---|---|---|---|---|---|");
    let mut first = vec![0; MOST * stride(LARGEST.0)];
    assert_eq!(fill(LARGEST, &mut first), None, "more entries than a book has");
    print_row(LARGEST, &first);
    WHOLE.iter().for_each(|&size| print_row(size, &catalogue(size)));
    print_slowest_entry();
    print_slowest_book(&mut first);
}
