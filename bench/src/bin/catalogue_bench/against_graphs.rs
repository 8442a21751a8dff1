//! The library against the graph method of document 002, and beside the times that documents 000 and 002 print.

use crate::graphs::grow;
use crate::library::{catalogue, measure_once, stride, Size};
use crate::timing::{time, PASSES};

/// A first run that takes longer, in seconds, is not repeated.
const LONG: f64 = 20.0;

/// From this many factors on the library is to be ahead.
const AHEAD_FROM: usize = 11;

/// For 128 runs and resolution 4: the number of factors; GBA and GBAnoR, seconds, of document 002, table 5; P.A. and E.C.A. of document 000,
/// table 4.2.1, as its text has them.
const PRINTED: [(usize, [&str; 4]); 9] = [
    (8, ["0.000", "0.000", "", ""]),
    (9, ["0.000", "0.015", "0.57s", "0.44s"]),
    (10, ["0.015", "0.046", "4.7s", "2.5s"]),
    (11, ["0.125", "0.218", "36s", "27s"]),
    (12, ["0.671", "1.109", "5m3s", "5ms"]),
    (13, ["3.531", "5.390", "40m", "22m42s"]),
    (14, ["18.484", "25.765", "10d", "2h18m"]),
    (15, ["57.219", "73.719", "40d", "14h18m"]),
    (16, ["175.752", "211.362", "–", "118h"]),
];

fn printed((n, g, r): Size) -> [&'static str; 4] {
    let row = PRINTED.iter().find(|row| (row.0, r) == (n, 4) && n - g == 7);
    row.map_or([""; 4], |row| row.1)
}

/// 64 runs, resolution 3, and 128 runs, resolution 4.
fn sizes() -> impl Iterator<Item = Size> {
    (8..=16).map(|n| (n, n - 6, 3)).chain((9..=16).map(|n| (n, n - 7, 4)))
}

/// The fastest of five runs of the library and of the graph method, in turn, or its only one if it is long; and how many graphs it labels.
fn measure_both(size: Size, length: usize) -> (f64, f64, usize) {
    let (n, g, r) = size;
    let mut list = vec![0; length];
    let mut library = measure_once(size, &mut list);
    let (found, mut graphs) = time(|| grow(n, n - g, r));
    assert_eq!(found.plans, length / stride(n), "the graph method finds another number of plans for {n} {g} {r}");
    let mut passes = 1;
    while passes < PASSES && graphs < LONG {
        library = library.min(measure_once(size, &mut list));
        graphs = graphs.min(time(|| grow(n, n - g, r)).1);
        passes += 1;
    }
    (library, graphs, found.labelled)
}

pub fn print() {
    println!("| N | G | R | entries | library, s | graphs | graph method, s | library / graph method | 002 GBA, s | 002 GBAnoR, s | 000 P.A. | 000 E.C.A. |");
    println!("|---|---|---|---|---|---|---|---|---|---|---|---|");
    let mut behind = Vec::new();
    for size in sizes() {
        let (n, g, r) = size;
        let length = catalogue(size).len();
        let (library, graphs, labelled) = measure_both(size, length);
        let ratio = library / graphs;
        let [gba, basic, pa, eca] = printed(size);
        println!(
            "| {n} | {g} | {r} | {} | {library:.5} | {labelled} | {graphs:.5} | {ratio:.3} | {gba} | {basic} | {pa} | {eca} |",
            length / stride(n)
        );
        if n >= AHEAD_FROM && ratio >= 1.0 {
            behind.push(format!("{n} {g} {r}"));
        }
    }
    let behind = if behind.is_empty() { "none".into() } else { behind.join(", ") };
    println!("\nRows of {AHEAD_FROM} factors or more in which the library is not ahead of the graph method: {behind}.");
}
