//! Plans that are hard to compare: alike but different, with words of even length only, or with many renamings onto themselves.

use crate::check::columns::rank_is;
use crate::random::Random;

/// Columns and their number of basic factors.
pub type Columns = (usize, Vec<u32>);

/// P and Q of document 01, which have one pattern and are different.
pub fn p_and_q() -> (Columns, Columns) {
    ((6, vec![1, 2, 4, 7, 8, 11, 16, 32, 61]), (6, vec![1, 2, 4, 7, 8, 16, 25, 32, 42]))
}

fn numbers(text: &str) -> Vec<u32> {
    text.split_whitespace().map(|number| number.parse().unwrap_or_else(|_| panic!("no number: {number}"))).collect()
}

/// The pairs of data/alike-pairs.txt: different, although their patterns agree and their factors are low in as many runs of each
/// number of low levels up to seven.
pub fn alike_pairs() -> Vec<(Columns, Columns)> {
    let mut pairs = Vec::new();
    for line in include_str!("../data/alike-pairs.txt").lines().filter(|line| !line.starts_with('#')) {
        let parts: Vec<Vec<u32>> = line.split('|').map(numbers).collect();
        let [sizes, first, second] = parts.as_slice() else { panic!("not sizes and two lists: {line}") };
        let [n, m] = sizes.as_slice() else { panic!("not two sizes: {line}") };
        assert!(first.len() == *n as usize && second.len() == *n as usize, "columns of {line}");
        pairs.push(((*m as usize, first.clone()), (*m as usize, second.clone())));
    }
    pairs
}

/// Random columns of odd weight, of rank m: every word of theirs has an even number of letters.
pub fn odd_weight(random: &mut Random, n: usize, m: usize) -> Columns {
    let mut odd: Vec<u32> = (1..1 << m).filter(|column: &u32| column.count_ones() % 2 == 1).collect();
    loop {
        random.shuffle(&mut odd);
        if rank_is(m, &odd[..n]) {
            return (m, odd[..n].to_vec());
        }
    }
}

/// Columns first to last.
fn all(m: usize, first: u32, last: u32) -> Columns {
    (m, (first..=last).collect())
}

/// The m basic columns and these.
fn basics_and(m: usize, more: &[u32]) -> Columns {
    (m, (0..m).map(|i| 1 << i).chain(more.iter().copied()).collect())
}

/// Plans with many renamings onto themselves, each with what it is.
pub fn symmetric() -> Vec<(&'static str, Columns)> {
    let two_halves = (16..24).chain([32, 33, 34, 35, 40, 41, 42, 43]).collect();
    let four_blocks = (16..20).chain(32..36).chain([64, 68, 72, 76]).chain([112, 117, 122, 127]).collect();
    vec![
        ("sixteen points of an affine space, M 5", all(5, 16, 31)),
        ("1 to 15, M 4", all(4, 1, 15)),
        ("eight factors with one word of eight", basics_and(7, &[127])),
        ("eight points of an affine space, M 4", all(4, 8, 15)),
        ("1 to 15 less one column, M 4", all(4, 2, 15)),
        ("two blocks of eight points, M 6", (6, two_halves)),
        ("four blocks of four points, M 7", (7, four_blocks)),
        ("1 to 15 and one more factor, M 5", (5, (1..17).collect())),
        ("1 to 7 twice and two more, M 6", (6, (1..8).chain((1..8).map(|c| 8 * c)).chain([9, 18]).collect())),
        ("1 to 7 twice, M 6", (6, (1..8).chain((1..8).map(|c| 8 * c)).collect())),
        ("four words of three, N 11, M 7", basics_and(7, &[3, 12, 48, 65])),
        ("two words of four and five, N 9, M 7", basics_and(7, &[7, 120])),
        ("1 to 7 and five more, M 7", (7, (1..8).chain([8, 16, 32, 64, 120]).collect())),
        ("three words of three, N 9, M 6", basics_and(6, &[3, 12, 48])),
        ("three words of four, N 10, M 7", basics_and(7, &[7, 56, 73])),
    ]
}
