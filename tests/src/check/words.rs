//! Words of a set of runs, and the reduced list that generates them.

use super::bits::{has, last_letter, odd};

/// Whether the factors of the set have the same product of signs in every run.
pub fn is_word(runs: &[u32], set: u32) -> bool {
    set != 0 && runs.iter().all(|&run| odd(run, set) == odd(runs[0], set))
}

/// Every word of a set of runs of n factors.
pub fn words_of(n: usize, runs: &[u32]) -> Vec<u32> {
    (1..1 << n).filter(|&set| is_word(runs, set)).collect()
}

/// The product of the chosen words: letters in common disappear.
pub fn product(words: &[u32], chosen: u32) -> u32 {
    let mut set = 0;
    for (i, &word) in words.iter().enumerate() {
        if has(chosen, i) {
            set ^= word;
        }
    }
    set
}

/// Whether no product of some of the words is empty.
pub fn independent(words: &[u32]) -> bool {
    (1..1 << words.len()).all(|chosen| product(words, chosen) != 0)
}

/// Whether factor f is the last letter of some word.
pub fn is_last_letter(words: &[u32], f: usize) -> bool {
    words.iter().any(|&word| last_letter(word) == Some(f))
}

/// The words, by rising last letter, in which no other last letter stands. Takes all words of a plan of n factors.
pub fn reduced(n: usize, words: &[u32]) -> Vec<u32> {
    let lasts: Vec<usize> = (0..n).filter(|&f| is_last_letter(words, f)).collect();
    let apart = |word: u32, f: usize| lasts.iter().all(|&e| e == f || !has(word, e));
    let mut list = Vec::new();
    for &f in &lasts {
        let found: Vec<u32> = words.iter().copied().filter(|&word| last_letter(word) == Some(f) && apart(word, f)).collect();
        assert_eq!(found.len(), 1, "reduced words ending at factor {f} among {words:?}");
        list.push(found[0]);
    }
    list
}
