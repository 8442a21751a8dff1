//! The book: its records one after another, and what its writer turns away.

use super::bits::letters;
use super::measures::pattern;
use super::plan::{columns_and_mask, stride, Given, Plan};
use super::refusals::{accepted_bytes, of_sizes};

/// The most plans that a book can have.
pub const MOST_PLANS: usize = 65_535;

/// 16 bits, low byte first.
fn low_first(number: usize) -> [u8; 2] {
    [(number & 0xff) as u8, (number >> 8) as u8]
}

/// The record of kind 0x01: the sizes, the resolution and the count of entries.
pub fn header(n: usize, g: usize, r: usize, count: usize) -> Vec<u8> {
    let [low, high] = low_first(count);
    vec![0x01, n as u8, g as u8, r as u8, low, high]
}

/// An entry: the record of kind 0x20 + N, the columns, and that of kind 0x40 + N, the counts for lengths 3 to N.
pub fn entry(n: usize, g: usize, columns: &[u32]) -> Vec<u8> {
    let counts = pattern(n, &Plan::new(&Given::columns(n, g, columns, 0)).words);
    let mut bytes = vec![0x20 + n as u8];
    bytes.extend(columns.iter().map(|&column| column as u8));
    bytes.push(0x40 + n as u8);
    for length in 3..=n {
        bytes.extend(low_first(counts[length - 1] as usize));
    }
    bytes
}

/// The book of plans that are in order.
pub fn book(n: usize, g: usize, r: usize, plans: &[Vec<u32>]) -> Vec<u8> {
    let mut bytes = header(n, g, r, plans.len());
    for plan in plans {
        bytes.extend(entry(n, g, plan));
    }
    bytes
}

/// The number under which one plan in bytes is refused where words of r letters are wanted, 0 if it is not. A mask other than 0 is 5.
fn of_plan(n: usize, g: usize, r: usize, bytes: &[u32]) -> u8 {
    match accepted_bytes(n, g, bytes) {
        _ if columns_and_mask(n, bytes).1 != 0 => 5,
        Err(number) => number,
        Ok(plan) if plan.words.iter().any(|&word| letters(word) < r) => 7,
        Ok(_) => 0,
    }
}

/// The lowest number that applies to the writer's call with these plans and this many lent bytes, 0 if none does.
pub fn refusal(n: usize, g: usize, r: usize, plans: &[u8], places: usize) -> u8 {
    let sizes = of_sizes(n, g);
    if sizes != 0 {
        return sizes;
    }
    if !(3..=16).contains(&r) {
        return 3;
    }
    let each = stride(n);
    if plans.len() % each != 0 || plans.len() / each > MOST_PLANS {
        return 4;
    }
    let numbers = plans.chunks(each).map(|plan| of_plan(n, g, r, &plan.iter().map(|&byte| byte.into()).collect::<Vec<u32>>()));
    if let Some(lowest) = numbers.filter(|&number| number != 0).min() {
        return lowest;
    }
    let counts = if n < 3 { 0 } else { 2 * (n - 2) };
    if places < 6 + plans.len() / each * (1 + n + 1 + counts) {
        return 8;
    }
    0
}
