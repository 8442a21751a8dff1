//! The load of a seed: document 02, request 6.

use super::refusals::of_sizes;

/// What a draw adds to the state.
const STEP: u64 = 2_654_435_769;

/// The state of 32 bits that draws are made from.
#[derive(Clone, Debug, PartialEq, Eq)]
pub struct Draws {
    state: u64,
}

impl Draws {
    /// The state starts at the seed.
    pub fn new(seed: u32) -> Draws {
        Draws { state: seed.into() }
    }

    pub fn state(&self) -> u32 {
        self.state as u32
    }

    /// Adds to the state, drops the carry beyond 32 bits, and yields the state exclusive-or the state shifted right by 15.
    pub fn draw(&mut self) -> u64 {
        self.state = (self.state + STEP) % (1 << 32);
        self.state ^ self.state >> 15
    }
}

/// A load, and what it was before swapping.
#[derive(Clone, Debug, PartialEq, Eq)]
pub struct Load {
    /// the columns before swapping
    pub before: Vec<u32>,
    /// the columns of the load
    pub columns: Vec<u32>,
    /// 0, 1 and so on, swapped alike: the names of a witness from the load to the plan before swapping
    pub places: Vec<u32>,
}

/// The first column from 1 to 2^m - 1 that is not used, from this one upward, going from the last to 1.
fn first_unused(m: usize, from: u32, used: &[u32]) -> u32 {
    let (below, upward) = (1..from, from..1 << m);
    upward.chain(below).find(|column| !used.contains(column)).expect("a column that is not used")
}

/// The columns before swapping: 1, 2, 4 and so on for m factors, then one for each draw.
fn columns(n: usize, m: usize, draws: &mut Draws) -> Vec<u32> {
    let mut columns: Vec<u32> = (0..m).map(|i| 1 << i).collect();
    while columns.len() < n {
        let from = draws.draw() % ((1 << m) - 1) + 1;
        columns.push(first_unused(m, from as u32, &columns));
    }
    columns
}

/// The next load of n factors and g generators, a size that has one.
pub fn load(n: usize, g: usize, draws: &mut Draws) -> Load {
    let before = columns(n, n - g, draws);
    let (mut columns, mut places) = (before.clone(), (0..n as u32).collect::<Vec<u32>>());
    for i in (1..n).rev() {
        let other = (draws.draw() % (i as u64 + 1)) as usize;
        columns.swap(i, other);
        places.swap(i, other);
    }
    Load { before, columns, places }
}

/// The number under which there is no load of these sizes, 0 if there is one: 1 or 2, then 7 if N exceeds 2^M - 1.
pub fn refusal(n: usize, g: usize) -> u8 {
    match of_sizes(n, g) {
        0 if n > (1 << (n - g)) - 1 => 7,
        number => number,
    }
}
