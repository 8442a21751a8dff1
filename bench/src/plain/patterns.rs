//! The words of standard columns, and their numbers by length.

use super::admission::Columns;

/// The reduced words of standard columns.
pub fn generators(n: usize, columns: &Columns) -> [u16; 16] {
    let mut words = [0; 16];
    let mut basics = [0u16; 16];
    let mut m = 0;
    for (f, &column) in columns[..n].iter().enumerate() {
        if usize::from(column) == 1 << m {
            basics[m] = 1 << f;
            m += 1;
            continue;
        }
        words[f - m] = (0..m).filter(|&i| column >> i & 1 == 1).fold(1 << f, |word, i| word ^ basics[i]);
    }
    words
}

/// The products of the first g words, that of the words at the bits of t at place t.
pub fn products(g: usize, words: &[u16; 16]) -> [u16; 2048] {
    let mut sums = [0; 2048];
    for (d, &word) in words[..g].iter().enumerate() {
        let (done, next) = sums.split_at_mut(1 << d);
        for (sum, &product) in next.iter_mut().zip(done.iter()) {
            *sum = product ^ word;
        }
    }
    sums
}

/// The number of words of each length.
pub fn pattern(n: usize, g: usize, columns: &Columns) -> [u16; 17] {
    let sums = products(g, &generators(n, columns));
    let mut counts = [0; 17];
    for word in &sums[..1 << g] {
        counts[word.count_ones() as usize] += 1;
    }
    counts
}
