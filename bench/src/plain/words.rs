//! Words refused by number, or brought into the standard columns of the plan that they generate.

use super::admission::{distinct, size_fault, Columns};

/// The standard columns of a list of generators, or the number that refuses it.
pub fn admit_words(n: usize, g: usize, list: &[u16]) -> Result<Columns, u32> {
    if let Some(number) = size_fault(n, g) {
        return Err(number);
    }
    if list.len() != g {
        return Err(4);
    }
    if list.iter().any(|&word| usize::from(word) >= 1 << n) {
        return Err(5);
    }
    let columns = read_columns(n, &eliminate(n, list).ok_or(6u32)?);
    if !distinct(&columns[..n]) {
        return Err(7);
    }
    Ok(columns)
}

/// The word with last letter f at place f, 0 where there is none, if the words are independent.
fn eliminate(n: usize, list: &[u16]) -> Option<[u16; 16]> {
    let mut pivots = [0; 16];
    for &word in list {
        let mut left = word;
        for f in (0..n).rev() {
            if left >> f & 1 == 1 {
                left ^= pivots[f];
            }
        }
        let last = (0..n).rev().find(|f| left >> f & 1 == 1)?;
        pivots[last] = left;
    }
    Some(pivots)
}

/// A factor that is the last letter of no word takes the next of 1, 2, 4; the others take the sum of their word's other letters.
fn read_columns(n: usize, pivots: &[u16; 16]) -> Columns {
    let mut columns = [0u8; 16];
    let mut unit = 1u16;
    for f in 0..n {
        if pivots[f] == 0 {
            columns[f] = unit as u8;
            unit += unit;
            continue;
        }
        columns[f] = (0..f).filter(|e| pivots[f] >> e & 1 == 1).fold(0, |sum, e| sum ^ columns[e]);
    }
    columns
}
