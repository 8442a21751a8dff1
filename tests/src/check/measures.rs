//! Pattern, resolution, distance counts and aberration.

use super::bits::letters;

/// For each length from 1 to n the number of words of that many letters.
pub fn pattern(n: usize, words: &[u32]) -> Vec<u32> {
    (1..=n).map(|length| words.iter().filter(|&&word| letters(word) == length).count() as u32).collect()
}

/// The shortest word's length; n + 1 for a plan without words.
pub fn resolution(n: usize, words: &[u32]) -> u32 {
    words.iter().map(|&word| letters(word)).min().unwrap_or(n + 1) as u32
}

/// For each i from 0 to n, how many runs differ from the first run in exactly i factors.
pub fn distances(n: usize, runs: &[u32]) -> Vec<u32> {
    (0..=n).map(|i| runs.iter().filter(|&&run| letters(run ^ runs[0]) == i).count() as u32).collect()
}

/// The first length from 3 to n at which two patterns differ.
pub fn first_difference(n: usize, first: &[u32], second: &[u32]) -> Option<usize> {
    (3..=n).find(|&length| first[length - 1] != second[length - 1])
}

/// Whether the second pattern is better: it has the smaller count at the first length from 3 to n that differs.
pub fn second_is_better(n: usize, first: &[u32], second: &[u32]) -> bool {
    first_difference(n, first, second).is_some_and(|length| second[length - 1] < first[length - 1])
}
