//! Sets of factors as numbers.

/// Whether factor f is in the set.
pub fn has(set: u32, f: usize) -> bool {
    set >> f & 1 == 1
}

/// The number of letters of a set of factors.
pub fn letters(set: u32) -> usize {
    set.count_ones() as usize
}

/// Whether two numbers share an odd number of bits.
pub fn odd(a: u32, b: u32) -> bool {
    (a & b).count_ones() % 2 == 1
}

/// The last letter of a set; none if the set is empty.
pub fn last_letter(set: u32) -> Option<usize> {
    (0..32).rev().find(|&f| has(set, f))
}
