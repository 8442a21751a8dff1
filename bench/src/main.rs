//! Measures the comparison of two plans, through the exported function on columns, against the same steps in plain Rust and against
//! canonical labels by nauty, on the same pairs. Prints a Markdown table: of families of pairs; with the word `entries` of pairs of
//! every size; with the word `choice` of the choice between different plans by aberration; with the word `smallest` of the smallest
//! forms of the plans of families; with the word `signs` of words with minus signs to columns; with the word `loads` of the loads of seeds;
//! with the word `beside` of calls on these and of catalogues by the library and by another build of it, if that is linked.

#[cfg(feature = "beside")]
mod beside;
mod choice;
mod entries;
mod families;
mod loads;
mod nauty;
mod plain;
mod signs;
mod smallest;

use families::{Draw, Family};
use plain::admission::admit;
use planner::{plan_compare_columns, PLAN_SAME};
use std::hint::black_box;
use std::time::Instant;

/// Passes over a family, the three in turn in each: each pair counts at its fastest.
const PASSES: usize = 5;

/// The library, plain Rust and nauty.
const ALL: [Decide; 3] = [by_the_library, by_plain_rust, by_nauty];

/// Whether two plans are the same, by one of the three.
type Decide = fn(usize, usize, &[u8], &[u8]) -> bool;

fn by_the_library(n: usize, g: usize, first: &[u8], second: &[u8]) -> bool {
    let mut witness = [0; 16];
    plan_compare_columns(n, g, first, second, &mut witness) == PLAN_SAME
}

fn by_plain_rust(n: usize, g: usize, first: &[u8], second: &[u8]) -> bool {
    let mut witness = [0; 16];
    plain::compare_columns(n, g, first, second, &mut witness) == PLAN_SAME
}

/// By labels of both plans. The columns are admitted as the other two admit them.
fn by_nauty(n: usize, g: usize, first: &[u8], second: &[u8]) -> bool {
    let (Ok(first), Ok(second)) = (admit(n, g, first), admit(n, g, second)) else { panic!("not plans") };
    let (mut one, mut other) = ([0; nauty::MOST_NUMBERS], [0; nauty::MOST_NUMBERS]);
    let count = nauty::label(n, g, &first, &mut one);
    count == nauty::label(n, g, &second, &mut other) && one[..count] == other[..count]
}

/// Decides every pair once, and keeps its time where it is the fastest so far.
fn pass(family: &Family, decide: Decide, fastest: &mut [f64]) {
    for ((first, second), fastest) in family.pairs.iter().zip(fastest) {
        let start = Instant::now();
        black_box(decide(family.n, family.n - family.m, black_box(first), black_box(second)));
        *fastest = fastest.min(start.elapsed().as_secs_f64() * 1e6);
    }
}

/// Microseconds for each pair at its fastest, by each of the three.
fn measure(family: &Family) -> [Vec<f64>; 3] {
    let mut fastest = ALL.map(|_| vec![f64::INFINITY; family.pairs.len()]);
    for _ in 0..PASSES {
        for (decide, fastest) in ALL.iter().zip(&mut fastest) {
            pass(family, *decide, fastest);
        }
    }
    fastest
}

fn mean(times: &[f64]) -> f64 {
    times.iter().sum::<f64>() / times.len() as f64
}

fn worst(times: &[f64]) -> f64 {
    times.iter().copied().fold(0.0, f64::max)
}

/// Fails unless all three decide every pair as the family says.
fn confirm(family: &Family) {
    for (first, second) in &family.pairs {
        for decide in ALL {
            let found = decide(family.n, family.n - family.m, first, second);
            assert_eq!(found, family.same, "{}: {first:?} and {second:?}", family.kind);
        }
    }
}

fn print_row(family: &Family) {
    confirm(family);
    let [ours, plain, nauty] = measure(family);
    let behind = ours.iter().zip(&nauty).filter(|(ours, nauty)| ours > nauty).count();
    let Family { kind, n, m, same, pairs } = family;
    let answer = if *same { "same" } else { "different" };
    println!(
        "| {kind} | {n} | {m} | {answer} | {} | {:.2} | {:.2} | {:.2} | {:.2} | {:.2} | {:.1} | {:.1} | {:.3} | {behind} |",
        pairs.len(),
        mean(&ours),
        worst(&ours),
        mean(&plain),
        worst(&plain),
        mean(&ours) / mean(&plain),
        mean(&nauty),
        worst(&nauty),
        mean(&ours) / mean(&nauty),
    );
}

fn families() -> Vec<Family> {
    let mut list = Vec::new();
    for (n, m) in [(16, 7), (16, 6), (16, 5), (12, 6), (9, 6)] {
        list.push(families::same(n, m, "random", Draw::Any));
        list.push(families::other_patterns(n, m, "random, other pattern"));
        list.push(families::equal_patterns(n, m, "random, equal patterns", Draw::Any));
    }
    for (n, m) in [(16, 7), (16, 6)] {
        list.push(families::same(n, m, "odd weight", Draw::Odd));
        list.push(families::equal_patterns(n, m, "odd weight, equal patterns", Draw::Odd));
        list.push(families::alike(n, m, "equal patterns and letter counts"));
    }
    list.push(families::alike(14, 7, "equal patterns and letter counts"));
    list.push(families::alike(12, 7, "equal patterns and letter counts"));
    list.push(families::p_against_q());
    list.extend(families::symmetric_plans());
    list
}

fn print_families() {
    println!(
        "| pairs | N | M | answer | number | library | worst | plain Rust | worst | library / plain | nauty | worst | library / nauty | behind |"
    );
    println!("|---|---|---|---|---|---|---|---|---|---|---|---|---|---|");
    families().iter().for_each(print_row);
}

/// The pairs of all sizes with one number of basic factors: those that are the same, and those that are different.
fn print_entries(m: usize) {
    let families = entries::families(m);
    for same in [true, false] {
        let (mut ours, mut nauty) = (Vec::new(), Vec::new());
        for family in families.iter().filter(|family| family.same == same) {
            confirm(family);
            let [library, _, labels] = measure(family);
            ours.extend(library);
            nauty.extend(labels);
        }
        let ratios: Vec<f64> = ours.iter().zip(&nauty).map(|(ours, nauty)| ours / nauty).collect();
        let behind = ratios.iter().filter(|&&ratio| ratio > 1.0).count();
        let answer = if same { "same" } else { "different" };
        if ours.is_empty() {
            continue;
        }
        println!(
            "| {m} | {m} to {} | {answer} | {} | {:.2} | {:.2} | {:.1} | {:.1} | {:.3} | {:.3} | {behind} |",
            16.min((1 << m) - 1),
            ours.len(),
            mean(&ours),
            worst(&ours),
            mean(&nauty),
            worst(&nauty),
            mean(&ours) / mean(&nauty),
            worst(&ratios),
        );
    }
}

fn main() {
    match std::env::args().nth(1).as_deref() {
        None => print_families(),
        Some("entries") => {
            println!("| M | N | answer | number | library | worst | nauty | worst | library / nauty | worst pair | behind |");
            println!("|---|---|---|---|---|---|---|---|---|---|---|");
            (1..=7).for_each(print_entries);
        }
        Some("choice") => {
            println!("| pairs | N | M | number | library | worst | plain Rust | worst | library / plain |");
            println!("|---|---|---|---|---|---|---|---|---|");
            families().iter().filter(|family| !family.same).for_each(choice::print_row);
        }
        Some("smallest") => {
            println!("| plans | N | M | number | library | worst | nauty | worst | library / nauty |");
            println!("|---|---|---|---|---|---|---|---|---|");
            families().iter().filter(|family| family.same).for_each(smallest::print_row);
        }
        Some("signs") => signs::print(),
        Some("loads") => loads::print(),
        #[cfg(feature = "beside")]
        Some("beside") => beside::print(&families()),
        Some(word) => panic!("no part {word}"),
    }
}
