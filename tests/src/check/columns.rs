//! Rank of columns, the factors that they let be switched, and the standard columns of a plan.

use super::bits::{has, last_letter};
use super::words::is_last_letter;

/// Whether the columns have rank m: every number below 2^m is the exclusive-or of some of them.
pub fn rank_is(m: usize, columns: &[u32]) -> bool {
    let mut reached = vec![false; 1 << m];
    reached[0] = true;
    for &column in columns {
        let before = reached.clone();
        for v in 0..1 << m {
            if before[v] {
                reached[v ^ column as usize] = true;
            }
        }
    }
    reached.iter().all(|&r| r)
}

/// The factors whose column is an exclusive-or of columns before it, which are the last letters of words. The columns may have any rank.
pub fn last_letters(columns: &[u32]) -> u32 {
    let mut span = vec![0];
    let mut factors = 0;
    for (f, &column) in columns.iter().enumerate() {
        if span.contains(&column) {
            factors |= 1 << f;
        } else {
            span.extend(span.clone().iter().map(|sum| sum ^ column));
        }
    }
    factors
}

/// The exclusive-or of the columns of a set of factors.
pub fn total(columns: &[u32], set: u32) -> u32 {
    let mut sum = 0;
    for (f, &column) in columns.iter().enumerate() {
        if has(set, f) {
            sum ^= column;
        }
    }
    sum
}

/// The standard columns of a plan of n factors, from all its words: going through the factors from A, one that is the last letter of no
/// word takes the next of 1, 2, 4 and so on; another makes the columns of each word that it ends cancel.
pub fn standard(n: usize, words: &[u32]) -> Vec<u32> {
    let mut columns = Vec::new();
    let mut unit = 1;
    for f in 0..n {
        if !is_last_letter(words, f) {
            columns.push(unit);
            unit *= 2;
            continue;
        }
        let ending: Vec<u32> = words.iter().copied().filter(|&word| last_letter(word) == Some(f)).collect();
        let column = total(&columns, ending[0]);
        assert!(ending.iter().all(|&word| total(&columns, word) == column), "columns of factor {f} differ by word");
        columns.push(column);
    }
    columns
}
