//! How many sets of columns there are, without going through them.

/// The choices of i independent numbers below 2^m, one after another: each lies outside the span of those before it.
fn independent(m: usize, i: usize) -> u128 {
    (0..i).map(|k| (1 << m) - (1 << k)).product()
}

/// The linear maps of rank m of the numbers below 2^m: the choices of m independent images.
pub fn linear_maps(m: usize) -> u128 {
    independent(m, m)
}

/// The choices of n of so many things.
fn choices(things: u128, n: usize) -> u128 {
    (0..n as u128).fold(1, |found, k| found * things.saturating_sub(k) / (k + 1))
}

/// The sets of n different columns from 1 to 2^m - 1 that have rank m: all sets but those whose span is smaller, by that span.
pub fn sets_of_rank(n: usize, m: usize) -> u128 {
    let spans = |i: usize| independent(m, i) / independent(i, i);
    choices((1 << m) - 1, n) - (0..m).map(|i| spans(i) * sets_of_rank(n, i)).sum::<u128>()
}
