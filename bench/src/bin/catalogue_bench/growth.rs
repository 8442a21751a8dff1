//! How the library's time grows with the entries.

use crate::library::{catalogue, fill, measure, stride, Size};
use crate::timing::time;

fn sizes() -> impl Iterator<Item = Size> {
    let rows = [(5, 3, 9..=16), (6, 3, 9..=16), (7, 3, 9..=14), (5, 4, 9..=16), (6, 4, 9..=16), (7, 4, 9..=16), (7, 5, 9..=11)];
    rows.into_iter().flat_map(|(m, r, factors)| factors.map(move |n| (n, n - m, r)))
}

/// The largest catalogues, with more places than they have entries.
const LONG: [(Size, usize); 2] = [((15, 8, 3), 1 << 18), ((16, 9, 3), 1 << 20)];

fn print_row((n, g, r): Size, count: usize, seconds: f64) {
    println!("| {n} | {g} | {r} | {count} | {seconds:.5} | {:.1} |", seconds * 1e6 / count as f64);
}

/// With the largest, each of which is run once.
pub fn print(long: bool) {
    println!("| N | G | R | entries | seconds | µs an entry |");
    println!("|---|---|---|---|---|---|");
    for size in sizes() {
        let length = catalogue(size).len();
        print_row(size, length / stride(size.0), measure(size, length));
    }
    for (size, most) in LONG.into_iter().filter(|_| long) {
        let mut list = vec![0; most * stride(size.0)];
        let (count, seconds) = time(|| fill(size, &mut list));
        print_row(size, count.expect("room for all"), seconds);
    }
}
