//! The load of a seed, through the exported function, against the same recipe in plain Rust, and beside the smallest form of the load.

use crate::plain;
use crate::PASSES;
use planner::{plan_load, plan_smallest_of_columns};
use std::hint::black_box;
use std::time::Instant;

/// The sizes that are measured, N and M: the smallest, the largest in each number of runs, and some between.
const SIZES: [(usize, usize); 10] = [(1, 1), (3, 2), (7, 3), (15, 4), (16, 5), (16, 6), (16, 7), (12, 7), (9, 6), (7, 7)];

/// How many loads of a size are made one after another.
const LOADS: usize = 10_000;

/// N and M where every column is used in the end, and the one of all 2^32 seeds with the most steps from a used column to the next: 93.
const MOST_STEPS: ((usize, usize), u32) = ((15, 4), 628_988_049);

/// The bytes of the load of a seed, and the state after it.
type Load = fn(usize, usize, u32) -> ([u8; 18], u32);

/// The library and plain Rust.
const BOTH: [Load; 2] = [by_the_library, by_plain_rust];

fn by_the_library(n: usize, g: usize, seed: u32) -> ([u8; 18], u32) {
    let mut plan = [0xee; 18];
    let answer = plan_load(n, g, seed, &mut plan);
    assert_eq!(answer.number, 0, "the size has a load");
    (plan, answer.state)
}

fn by_plain_rust(n: usize, g: usize, seed: u32) -> ([u8; 18], u32) {
    let mut plan = [0xee; 18];
    let state = plain::loads::load(n, g, seed, &mut plan).expect("the size has a load");
    (plan, state)
}

/// Seeds and their loads: each seed is the state after the load before it. Fails unless both have the same loads.
fn in_a_row(n: usize, g: usize) -> Vec<(u32, [u8; 18])> {
    let mut state = 0;
    let next = |_| {
        let [ours, plain] = BOTH.map(|load| load(n, g, state));
        assert_eq!(ours, plain, "the load of {state}, {n} {g}");
        let seed = std::mem::replace(&mut state, ours.1);
        (seed, ours.0)
    };
    (0..LOADS).map(next).collect()
}

/// Microseconds for one of these.
fn time<T>(list: &[T], mut run: impl FnMut(&T)) -> f64 {
    let start = Instant::now();
    list.iter().for_each(|one| run(black_box(one)));
    start.elapsed().as_secs_f64() * 1e6 / list.len() as f64
}

fn smallest(n: usize, g: usize, plan: &[u8]) -> [u8; 18] {
    let (mut form, mut witness) = ([0; 18], [0; 16]);
    assert_eq!(plan_smallest_of_columns(n, g, &plan[..n + 2], &[], &mut form, &mut witness).number, 0, "a load is a plan");
    form
}

/// All loads one after another, by both and then their smallest forms, in turn: each list counts at its fastest.
fn print_row(seeds: &str, n: usize, m: usize, list: &[(u32, [u8; 18])]) {
    let g = n - m;
    let mut fastest = [f64::INFINITY; 3];
    for _ in 0..PASSES {
        let ours = time(list, |(seed, _)| _ = black_box(by_the_library(n, g, *seed)));
        let plain = time(list, |(seed, _)| _ = black_box(by_plain_rust(n, g, *seed)));
        let form = time(list, |(_, plan)| _ = black_box(smallest(n, g, plan)));
        [ours, plain, form].iter().zip(&mut fastest).for_each(|(took, fastest)| *fastest = fastest.min(*took));
    }
    let [ours, plain, form] = fastest;
    println!("| {seeds} | {n} | {m} | {} | {ours:.3} | {plain:.3} | {:.2} | {form:.2} | {:.3} |", list.len(), ours / plain, ours / form);
}

pub fn print() {
    println!("| seeds | N | M | number | library | plain Rust | library / plain | smallest form | load / smallest form |");
    println!("|---|---|---|---|---|---|---|---|---|");
    SIZES.iter().for_each(|&(n, m)| print_row("in a row from 0", n, m, &in_a_row(n, n - m)));
    let ((n, m), seed) = MOST_STEPS;
    let [load, plain] = BOTH.map(|load| load(n, n - m, seed).0);
    assert_eq!(load, plain, "the load of {seed}, {n} {}", n - m);
    print_row(&format!("the most steps, {seed}"), n, m, &vec![(seed, load); LOADS]);
}
