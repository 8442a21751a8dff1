//! The load of a seed.

use super::admission::{size_fault, Columns};

/// The columns that were drawn, and the state after the draws.
struct Drawn {
    state: u32,
    columns: Columns,
}

/// What a draw adds to the state.
const STEP: u32 = 2_654_435_769;

/// The remainder by k of what a draw yields, by the state after it.
fn remainder(state: u32, k: usize) -> usize {
    (state ^ state >> 15) as usize % k
}

/// The first column that is not marked, from x + 1 upward, going from the last to 1.
fn first_unused(last: usize, x: usize, seen: &[bool; 128]) -> usize {
    let mut column = x + 1;
    while seen[column] {
        column = column % last + 1;
    }
    column
}

fn draw_columns(n: usize, m: usize, seed: u32) -> Drawn {
    let last = (1 << m) - 1;
    let (mut columns, mut seen, mut state) = ([0; 16], [false; 128], seed);
    for (f, place) in columns[..n].iter_mut().enumerate() {
        let column = if f < m {
            1 << f
        } else {
            state = state.wrapping_add(STEP);
            first_unused(last, remainder(state, last), &seen)
        };
        *place = column as u8;
        seen[column] = true;
    }
    Drawn { state, columns }
}

fn swap_places(n: usize, drawn: &mut Drawn) {
    for i in (1..n).rev() {
        drawn.state = drawn.state.wrapping_add(STEP);
        drawn.columns.swap(i, remainder(drawn.state, i + 1));
    }
}

/// The state after the load, whose bytes go into the plan, or the number that refuses it.
pub fn load(n: usize, g: usize, seed: u32, plan: &mut [u8]) -> Result<u32, u32> {
    if let Some(number) = size_fault(n, g) {
        return Err(number);
    }
    if 1 << (n - g) <= n {
        return Err(7);
    }
    let mut drawn = draw_columns(n, n - g, seed);
    swap_places(n, &mut drawn);
    if plan.len() < n + 2 {
        return Err(8);
    }
    plan[..n].copy_from_slice(&drawn.columns[..n]);
    plan[n..n + 2].fill(0);
    Ok(drawn.state)
}
