//! The smallest form of a plan, through the exported function on columns, against its canonical label by nauty.

use crate::families::Family;
use crate::nauty;
use crate::plain::admission::admit;
use crate::{mean, worst, PASSES};
use planner::plan_smallest_of_columns;
use std::hint::black_box;
use std::time::Instant;

fn by_the_library(n: usize, g: usize, plan: &[u8]) {
    let (mut smallest, mut witness) = ([0; 18], [0; 16]);
    let form = plan_smallest_of_columns(n, g, plan, &[], &mut smallest, &mut witness);
    assert_eq!(form.number, 0, "the plan is accepted");
    black_box(smallest);
}

fn by_nauty(n: usize, g: usize, plan: &[u8]) {
    let mut label = [0; nauty::MOST_NUMBERS];
    black_box(nauty::label(n, g, &admit(n, g, plan).expect("a plan"), &mut label));
}

/// The mean and the worst of the second plans of the pairs, each at its fastest, by both, in turn.
pub fn print_row(family: &Family) {
    let Family { kind, n, m, pairs, .. } = family;
    let mut fastest = [vec![f64::INFINITY; pairs.len()], vec![f64::INFINITY; pairs.len()]];
    for _ in 0..PASSES {
        for (run, fastest) in [by_the_library as fn(usize, usize, &[u8]), by_nauty].iter().zip(&mut fastest) {
            for ((_, plan), fastest) in pairs.iter().zip(fastest) {
                let start = Instant::now();
                run(*n, n - m, black_box(plan));
                *fastest = fastest.min(start.elapsed().as_secs_f64() * 1e6);
            }
        }
    }
    let [ours, nauty] = &fastest;
    println!(
        "| {kind} | {n} | {m} | {} | {:.1} | {:.1} | {:.1} | {:.1} | {:.3} |",
        pairs.len(),
        mean(ours),
        worst(ours),
        mean(nauty),
        worst(nauty),
        mean(ours) / mean(nauty),
    );
}
