//! Every line that the program `plans` takes: the exported function with room for as many entries as the program lends.

use crate::library::{fill, sizes, stride, Size};
use crate::timing::{fastest, time};

/// The entries that the program lends.
const ROOM: usize = 1024;

/// The slowest lines that are measured again and printed.
const SLOWEST: usize = 10;

fn lines() -> impl Iterator<Item = Size> {
    sizes().flat_map(|(n, g)| (3..=16).map(move |r| (n, g, r)))
}

pub fn print() {
    let mut list = vec![0; stride(16) * ROOM];
    let mut call = |size: Size| fill(size, &mut list[..ROOM * stride(size.0)]);
    let mut times: Vec<(Size, f64)> = lines().map(|size| (size, time(|| call(size)).1)).collect();
    let all = times.iter().map(|line| line.1).sum::<f64>();
    times.sort_by(|one, other| other.1.total_cmp(&one.1));
    let lines = times.len();
    times.truncate(SLOWEST);
    times.iter_mut().for_each(|(size, seconds)| *seconds = fastest(|| _ = call(*size)));
    times.sort_by(|one, other| other.1.total_cmp(&one.1));
    println!("| line | answer | ms |");
    println!("|---|---|---|");
    for &(size, seconds) in &times {
        let answer = call(size).map_or("refused 9".into(), |count| format!("entries {count}"));
        println!("| {} {} {} | {answer} | {:.2} |", size.0, size.1, size.2, seconds * 1e3);
    }
    let ((n, g, r), seconds) = times[0];
    println!("\nAll {lines} lines, one after another, once each: {all:.2} s. The slowest: `{n} {g} {r}`, {:.2} ms.", seconds * 1e3);
}
