//! Random plans in their three forms, with any signs and switches, and lists damaged in many ways.

use crate::check::columns::{last_letters, rank_is};
use crate::check::plan::{Form, Given};
use crate::check::runs::runs_of_columns;
use crate::check::words::words_of;
use crate::random::Random;

/// A plan by columns of rank m in any order.
#[derive(Clone, Debug)]
pub struct Sample {
    pub n: usize,
    pub m: usize,
    pub columns: Vec<u32>,
}

/// Columns for n factors, m of them basic: different, not 0, of rank m.
pub fn columns(random: &mut Random, n: usize, m: usize) -> Vec<u32> {
    let mut all: Vec<u32> = (1..1 << m).collect();
    loop {
        random.shuffle(&mut all);
        if rank_is(m, &all[..n]) {
            return all[..n].to_vec();
        }
    }
}

/// A random plan without a word of fewer than three letters; half of them as large as M lets them be, up to N 16.
pub fn sample(random: &mut Random) -> Sample {
    let m = random.pick(&[1, 2, 3, 3, 4, 4, 5, 5, 6, 6, 7, 7, 7, 7]) as usize;
    let most = 16.min((1 << m) - 1);
    let n = if random.below(2) == 0 { most } else { random.between(m, most) };
    Sample { n, m, columns: columns(random, n, m) }
}

/// The plan with one column 0 or repeated, still of rank m: a plan with a word of one or two letters. None if every try lowers the rank.
pub fn short_sample(random: &mut Random, plan: &Sample) -> Option<Sample> {
    for _ in 0..20 {
        let mut columns = plan.columns.clone();
        let (i, j) = (random.below(plan.n), random.below(plan.n));
        columns[i] = if i == j { 0 } else { columns[j] };
        if rank_is(plan.m, &columns) {
            return Some(Sample { n: plan.n, m: plan.m, columns });
        }
    }
    None
}

/// G words that generate the plan, taken at random.
pub fn generators(random: &mut Random, plan: &Sample) -> Vec<u32> {
    let words = words_of(plan.n, &runs_of_columns(plan.m, &plan.columns));
    let mut chosen = Vec::new();
    let mut products = vec![0];
    while chosen.len() < plan.n - plan.m {
        let word = random.pick(&words);
        if !products.contains(&word) {
            products.extend(products.clone().iter().map(|product| product ^ word));
            chosen.push(word);
        }
    }
    chosen
}

/// A mask that the columns allow: 0, or any.
pub fn any_mask(random: &mut Random, columns: &[u32]) -> u32 {
    match random.below(3) {
        0 => 0,
        _ => random.below(1 << 16) as u32 & last_letters(columns),
    }
}

/// Signs of g words: all plus, or any.
pub fn any_signs(random: &mut Random, g: usize) -> u32 {
    match random.below(3) {
        0 => 0,
        _ => random.below(1 << g) as u32,
    }
}

/// The plan's runs in any order, with the levels of some factors switched.
pub fn table(random: &mut Random, plan: &Sample) -> Vec<u32> {
    let switched = random.below(1 << plan.n) as u32;
    let mut runs: Vec<u32> = runs_of_columns(plan.m, &plan.columns).iter().map(|run| run ^ switched).collect();
    random.shuffle(&mut runs);
    runs
}

/// The plan in a form of its own choice of generators, order of runs, and levels: signs, mask or switches.
pub fn given(random: &mut Random, plan: &Sample, form: Form) -> Given {
    let (n, g) = (plan.n, plan.n - plan.m);
    match form {
        Form::Words => Given::words(n, g, &generators(random, plan), any_signs(random, g)),
        Form::Columns => Given::columns(n, g, &plan.columns, any_mask(random, &plan.columns)),
        Form::Runs => Given::runs(n, g, &table(random, plan)),
    }
}

/// Sizes of which at least one is refused, or which the list does not fit.
fn other_sizes(random: &mut Random, n: usize, g: usize) -> (usize, usize) {
    match random.below(12) {
        0 => (0, g),
        1 => (17, g),
        2 => (255, g),
        3 => (usize::MAX, g),
        4 => (n, n),
        5 => (n, n.wrapping_add(1)),
        6 => (n, usize::MAX),
        7 => (usize::MAX, usize::MAX),
        8 => (n.wrapping_add(1), g),
        9 => (n.wrapping_sub(1), g),
        10 => (n, g.wrapping_add(1)),
        _ => (n.wrapping_add(8), g),
    }
}

/// The list with one number changed.
fn other_number(random: &mut Random, form: Form, list: &mut [u32]) {
    let bits = if form == Form::Columns { 8 } else { 16 };
    let (i, j) = (random.below(list.len()), random.below(list.len()));
    match random.below(8) {
        0 => list[i] ^= 1 << random.below(bits),
        1 => list[i] = 0,
        2 => list[i] = list[j],
        3 => list[i] = (1 << bits) - 1,
        4 => list[i] = random.below(1 << bits) as u32,
        5 => list[i] = list[j] ^ 1 << random.below(bits),
        6 => list[i] = list[j] ^ 1 << random.below(bits) ^ 1 << random.below(bits),
        _ => list[i] = list.iter().fold(0, |sum, number| sum ^ number),
    }
}

/// The list with another count of numbers.
fn other_count(random: &mut Random, list: &mut Vec<u32>) {
    match random.below(6) {
        0 if !list.is_empty() => {
            list.pop();
        }
        1 => list.clear(),
        2 => list.push(0),
        3 => list.truncate(list.len().saturating_sub(2)),
        4 => list.extend([0, 0]),
        _ => list.push(random.below(200) as u32),
    }
}

/// The list with one bit of its signs or its mask changed, or all of them; a run table stays.
fn other_bits(random: &mut Random, given: &mut Given) {
    let bits = if random.below(4) == 0 { random.below(1 << 16) as u32 } else { 1 << random.below(16) };
    let count = given.list.len();
    match given.form {
        Form::Words => given.signs ^= bits,
        Form::Columns if count >= 2 => {
            given.list[count - 2] ^= bits & 0xff;
            given.list[count - 1] ^= bits >> 8;
        }
        _ => {}
    }
}

/// The given list damaged in one way. Some damage leaves a plan, only another one.
pub fn damaged(random: &mut Random, given: &Given) -> Given {
    let mut other = given.clone();
    match random.below(10) {
        0 | 1 => (other.n, other.g) = other_sizes(random, given.n, given.g),
        2 => other_count(random, &mut other.list),
        3 | 4 => other_bits(random, &mut other),
        _ if !other.list.is_empty() => other_number(random, given.form, &mut other.list),
        _ => other.list.push(random.below(200) as u32),
    }
    other
}
