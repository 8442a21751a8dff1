//! The choice between two plans by aberration, through the exported function on words, against the same steps in plain Rust.

use crate::families::Family;
use crate::{mean, plain, worst, PASSES};
use plan_tests::random::Random;
use plan_tests::samples::{generators, Sample};
use planner::plan_less_aberration;
use std::hint::black_box;
use std::time::Instant;

/// Which of two lists of words has less aberration.
type Choose = fn(usize, usize, &[u16], &[u16]) -> u8;

/// The library and plain Rust.
const BOTH: [Choose; 2] = [plan_less_aberration, plain::less_aberration];

/// The pairs of a family as lists of generators, drawn at random.
pub fn word_pairs(family: &Family) -> Vec<(Vec<u16>, Vec<u16>)> {
    let mut random = Random::new(0xc401);
    let mut words = |plan: &[u8]| {
        let columns = plan[..family.n].iter().map(|&column| u32::from(column)).collect();
        let list = generators(&mut random, &Sample { n: family.n, m: family.m, columns });
        list.iter().map(|&word| word as u16).collect()
    };
    family.pairs.iter().map(|(first, second)| (words(first), words(second))).collect()
}

/// The mean and the worst of the pairs, each at its fastest, by both, in turn. Fails unless both choose alike.
pub fn print_row(family: &Family) {
    let Family { kind, n, m, .. } = family;
    let (g, pairs) = (n - m, word_pairs(family));
    for (first, second) in &pairs {
        let [ours, plain] = BOTH.map(|choose| choose(*n, g, first, second));
        assert!(ours == plain && ours != 0, "{kind}: {first:?} and {second:?}: {ours} and {plain}");
    }
    let mut fastest = BOTH.map(|_| vec![f64::INFINITY; pairs.len()]);
    for _ in 0..PASSES {
        for (choose, fastest) in BOTH.iter().zip(&mut fastest) {
            for ((first, second), fastest) in pairs.iter().zip(fastest) {
                let start = Instant::now();
                black_box(choose(*n, g, black_box(first), black_box(second)));
                *fastest = fastest.min(start.elapsed().as_secs_f64() * 1e6);
            }
        }
    }
    let [ours, plain] = &fastest;
    println!(
        "| {kind} | {n} | {m} | {} | {:.2} | {:.2} | {:.2} | {:.2} | {:.2} |",
        pairs.len(),
        mean(ours),
        worst(ours),
        mean(plain),
        worst(plain),
        mean(ours) / mean(plain),
    );
}
