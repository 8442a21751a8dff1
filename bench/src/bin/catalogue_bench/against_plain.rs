//! The library against the same steps in plain Rust.

use crate::library::{catalogue, fill, stride, Size};
use crate::plain;
use crate::timing::{time, PASSES};

const SIZES: [Size; 7] = [(9, 4, 3), (10, 5, 3), (12, 6, 3), (14, 8, 3), (16, 10, 3), (14, 7, 4), (16, 9, 4)];

pub fn print() {
    println!("| N | G | R | entries | library, ms | plain Rust, ms | library / plain |");
    println!("|---|---|---|---|---|---|---|");
    for (n, g, r) in SIZES {
        let entries = catalogue((n, g, r));
        let mut list = vec![0; entries.len()];
        assert_eq!(plain::catalogue(n, n - g, r, &mut list), Some(entries.len() / stride(n)));
        assert!(list == entries, "the plain program has other entries for {n} {g} {r}");
        let (mut library, mut plain) = (f64::INFINITY, f64::INFINITY);
        for _ in 0..PASSES {
            library = library.min(time(|| fill((n, g, r), &mut list)).1);
            plain = plain.min(time(|| plain::catalogue(n, n - g, r, &mut list)).1);
        }
        println!(
            "| {n} | {g} | {r} | {} | {:.3} | {:.3} | {:.2} |",
            entries.len() / stride(n),
            library * 1e3,
            plain * 1e3,
            library / plain
        );
    }
}
