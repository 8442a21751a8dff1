//! Run tables: the runs of columns and a mask, the plan that words with signs generate, and when a table is regular.

use super::bits::{has, odd};

/// Whether no run stands twice in the table.
pub fn different(table: &[u32]) -> bool {
    (0..table.len()).all(|i| !table[..i].contains(&table[i]))
}

/// Whether the exclusive-or of any three runs of the table is one of its runs.
pub fn regular(table: &[u32]) -> bool {
    let mut member = vec![false; 1 << 16];
    for &x in table {
        member[x as usize] = true;
    }
    table.iter().all(|x| table.iter().all(|y| table.iter().all(|z| member[(x ^ y ^ z) as usize])))
}

/// Run j of the columns: a factor is low if j and its column share an odd number of bits.
pub fn run_of_columns(columns: &[u32], j: u32) -> u32 {
    let mut run = 0;
    for (f, &column) in columns.iter().enumerate() {
        if odd(j, column) {
            run |= 1 << f;
        }
    }
    run
}

/// The runs 0 to 2^m - 1 of the columns, in that order.
pub fn runs_of_columns(m: usize, columns: &[u32]) -> Vec<u32> {
    (0..1 << m).map(|j| run_of_columns(columns, j)).collect()
}

/// The same with the factors of a mask switched.
pub fn switched_runs(m: usize, columns: &[u32], mask: u32) -> Vec<u32> {
    runs_of_columns(m, columns).iter().map(|run| run ^ mask).collect()
}

/// The plan that words with signs generate: every run of n factors that meets word i in an odd number of low levels exactly if bit i of the
/// signs is 1.
pub fn plan_of_words(n: usize, words: &[u32], signs: u32) -> Vec<u32> {
    (0..1 << n).filter(|&run| words.iter().enumerate().all(|(i, &word)| odd(run, word) == has(signs, i))).collect()
}
