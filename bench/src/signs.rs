//! Words to columns, through the exported function: with all signs plus, and with minus signs, on the same words.

use crate::choice::word_pairs;
use crate::families::{same, Draw, Family};
use crate::{mean, worst, PASSES};
use plan_tests::random::Random;
use planner::plan_columns_of_words;
use std::hint::black_box;
use std::time::Instant;

/// The sizes that are measured: the most words in 4, 5, 6 and 7 basic factors, then fewer, and none.
const SIZES: [(usize, usize); 8] = [(15, 4), (16, 5), (16, 6), (16, 7), (12, 7), (9, 6), (8, 7), (7, 7)];

fn columns(n: usize, g: usize, words: &[u16], signs: u16) -> [u8; 18] {
    let mut plan = [0; 18];
    assert_eq!(plan_columns_of_words(n, g, words, signs, &mut plan), 0, "the words are accepted");
    plan
}

/// The mean and the worst of the lists, each at its fastest: with plus signs, with signs drawn at random, and with minus signs alone, in turn.
fn print_row(family: &Family) {
    let (n, m) = (family.n, family.m);
    let g = n - m;
    let mut random = Random::new(0x519);
    let lists: Vec<(Vec<u16>, [u16; 3])> =
        word_pairs(family).into_iter().map(|(words, _)| (words, [0, random.below(1 << g) as u16, ((1u32 << g) - 1) as u16])).collect();
    let mut fastest = [(); 3].map(|_| vec![f64::INFINITY; lists.len()]);
    for _ in 0..10 * PASSES {
        for (which, fastest) in fastest.iter_mut().enumerate() {
            for ((words, signs), fastest) in lists.iter().zip(fastest) {
                let start = Instant::now();
                black_box(columns(n, g, black_box(words), black_box(signs[which])));
                *fastest = fastest.min(start.elapsed().as_secs_f64() * 1e6);
            }
        }
    }
    let [plus, any, minus] = &fastest;
    println!(
        "| {n} | {m} | {g} | {} | {:.2} | {:.2} | {:.2} | {:.2} | {:.2} | {:.2} | {:.2} | {:.2} |",
        lists.len(),
        mean(plus),
        worst(plus),
        mean(any),
        worst(any),
        mean(minus),
        worst(minus),
        mean(any) / mean(plus),
        mean(minus) / mean(plus),
    );
}

pub fn print() {
    println!("| N | M | words | number | plus | worst | any signs | worst | minus | worst | any / plus | minus / plus |");
    println!("|---|---|---|---|---|---|---|---|---|---|---|---|");
    SIZES.iter().for_each(|&(n, m)| print_row(&same(n, m, "random", Draw::Any)));
}
