//! Canonical labels by nauty, on the smaller of the two graphs of document 002: factors and words, or factors and runs.

use crate::plain::admission::Columns;
use crate::plain::patterns::{generators, products};
use crate::plain::profiles::runs;

mod linked {
    extern "C" {
        pub fn plan_label(factors: usize, sets: *const u16, count: usize, label: *mut u64) -> usize;
    }
}

/// The most sets of factors that a graph has.
const MOST_SETS: usize = 127;

/// The most numbers that a label has: 3 for each vertex.
pub const MOST_NUMBERS: usize = 3 * (16 + MOST_SETS);

/// The label of the plan of standard columns, and how many numbers it has.
pub fn label(n: usize, g: usize, columns: &Columns, label: &mut [u64; MOST_NUMBERS]) -> usize {
    let m = n - g;
    let mut write = |sets: &[u16]| {
        assert!(sets.len() <= MOST_SETS);
        // SAFETY: the sets are valid for their count, and a label has at most 3 numbers for each of its n + count vertices.
        unsafe { linked::plan_label(n, sets.as_ptr(), sets.len(), label.as_mut_ptr()) }
    };
    match m < g {
        true => write(&runs(n, m, columns)[1..1 << m]),
        false => write(&products(g, &generators(n, columns))[1..1 << g]),
    }
}
