//! The catalogue by the exported function.

use crate::timing::{fastest, time};
use planner::plan_catalogue;

/// N, G and R.
pub type Size = (usize, usize, usize);

/// How many bytes a plan of n factors has.
pub fn stride(n: usize) -> usize {
    n + 2
}

/// Every N and G in bounds.
pub fn sizes() -> impl Iterator<Item = (usize, usize)> {
    (1..=16).flat_map(|n| (0..n).map(move |g| (n, g))).filter(|(n, g)| n - g <= 7)
}

/// The refusal of a list that has not enough room.
const NO_ROOM: u8 = 9;

/// Fills the list; answers the entry count, or none where the list has not enough room.
pub fn fill((n, g, r): Size, list: &mut [u8]) -> Option<usize> {
    let entries = plan_catalogue(n, g, r, list);
    assert!(entries.number == 0 || entries.number == NO_ROOM, "the size is accepted");
    (entries.number == 0).then_some(entries.count)
}

/// The catalogue, its entries in bytes, one after another.
pub fn catalogue(size: Size) -> Vec<u8> {
    let mut room = 1 << 10;
    loop {
        let mut list = vec![0; room * stride(size.0)];
        if let Some(count) = fill(size, &mut list) {
            list.truncate(count * stride(size.0));
            return list;
        }
        room *= 4;
    }
}

/// The time of one call.
pub fn measure_once(size: Size, list: &mut [u8]) -> f64 {
    let entries = list.len() / stride(size.0);
    let (found, seconds) = time(|| fill(size, list));
    assert_eq!(found, Some(entries));
    seconds
}

/// The time that the exported function takes for a catalogue into a list of just its length.
pub fn measure(size: Size, length: usize) -> f64 {
    let mut list = vec![0; length];
    fastest(|| assert_eq!(fill(size, &mut list), Some(length / stride(size.0))))
}
