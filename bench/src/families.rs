//! Pairs of plans to compare, by kind.

use crate::nauty;
use crate::plain::admission::admit;
use crate::plain::patterns::pattern;
use plan_tests::hard::{alike_pairs, odd_weight, p_and_q, symmetric};
use plan_tests::known::in_other_basics;
use plan_tests::random::Random;
use plan_tests::samples::columns;
use std::collections::HashMap;

/// Pairs of one kind and size: plans in bytes, with mask 0.
pub struct Family {
    pub kind: String,
    pub n: usize,
    pub m: usize,
    pub same: bool,
    pub pairs: Vec<(Vec<u8>, Vec<u8>)>,
}

/// Pairs in a family of random plans.
const PAIRS: usize = 200;

/// Disguises of each pair that is given.
const DISGUISES: usize = 25;

/// How plans are drawn: any columns, or columns of odd weight only.
#[derive(Clone, Copy)]
pub enum Draw {
    Any,
    Odd,
}

/// The bytes of a plan with mask 0.
fn bytes(columns: &[u32]) -> Vec<u8> {
    columns.iter().map(|&column| column as u8).chain([0, 0]).collect()
}

fn draw(random: &mut Random, n: usize, m: usize, how: Draw) -> Vec<u32> {
    match how {
        Draw::Any => columns(random, n, m),
        Draw::Odd => odd_weight(random, n, m).1,
    }
}

/// The plan with its factors in another order and its columns in other basic factors.
pub fn disguise(random: &mut Random, m: usize, columns: &[u32]) -> Vec<u8> {
    let mut other = in_other_basics(random, m, columns);
    random.shuffle(&mut other);
    bytes(&other)
}

pub fn pattern_of(m: usize, columns: &[u32]) -> [u16; 17] {
    let n = columns.len();
    pattern(n, n - m, &admit(n, n - m, &bytes(columns)).expect("a plan"))
}

fn label_of(m: usize, columns: &[u32]) -> Vec<u64> {
    let n = columns.len();
    let mut label = [0; nauty::MOST_NUMBERS];
    let count = nauty::label(n, n - m, &admit(n, n - m, &bytes(columns)).expect("a plan"), &mut label);
    label[..count].to_vec()
}

/// Random plans against disguises of themselves.
pub fn same(n: usize, m: usize, kind: &str, how: Draw) -> Family {
    let mut random = Random::new(0x5a3e);
    let mut pairs = Vec::new();
    for _ in 0..PAIRS {
        let plan = draw(&mut random, n, m, how);
        pairs.push((bytes(&plan), disguise(&mut random, m, &plan)));
    }
    Family { kind: kind.to_string(), n, m, same: true, pairs }
}

/// Random plans against others of another pattern.
pub fn other_patterns(n: usize, m: usize, kind: &str) -> Family {
    let mut random = Random::new(0x07e4);
    let mut pairs = Vec::new();
    while pairs.len() < PAIRS {
        let (first, second) = (columns(&mut random, n, m), columns(&mut random, n, m));
        if pattern_of(m, &first) != pattern_of(m, &second) {
            pairs.push((bytes(&first), bytes(&second)));
        }
    }
    Family { kind: kind.to_string(), n, m, same: false, pairs }
}

/// Random plans against others of the same pattern that are different.
pub fn equal_patterns(n: usize, m: usize, kind: &str, how: Draw) -> Family {
    let mut random = Random::new(0xe9a1);
    let mut met: HashMap<[u16; 17], Vec<u32>> = HashMap::new();
    let mut pairs = Vec::new();
    while pairs.len() < PAIRS {
        let plan = draw(&mut random, n, m, how);
        let Some(other) = met.insert(pattern_of(m, &plan), plan.clone()) else { continue };
        if label_of(m, &plan) != label_of(m, &other) {
            pairs.push((bytes(&other), bytes(&plan)));
        }
    }
    Family { kind: kind.to_string(), n, m, same: false, pairs }
}

/// Pairs that are different although their patterns and letter counts agree, each in many disguises.
pub fn alike(n: usize, m: usize, kind: &str) -> Family {
    let mut random = Random::new(0xa11e);
    let mut pairs = Vec::new();
    for (first, second) in alike_pairs().iter().filter(|(first, _)| first.0 == m && first.1.len() == n) {
        for _ in 0..DISGUISES {
            pairs.push((disguise(&mut random, m, &first.1), disguise(&mut random, m, &second.1)));
        }
    }
    Family { kind: kind.to_string(), n, m, same: false, pairs }
}

/// P and Q of document 01, in many disguises.
pub fn p_against_q() -> Family {
    let mut random = Random::new(0x909);
    let (p, q) = p_and_q();
    let pairs = (0..PAIRS).map(|_| (disguise(&mut random, p.0, &p.1), disguise(&mut random, q.0, &q.1))).collect();
    Family { kind: "P and Q".to_string(), n: p.1.len(), m: p.0, same: false, pairs }
}

/// A plan with many renamings onto itself, against disguises of itself.
pub fn symmetric_plans() -> Vec<Family> {
    let mut random = Random::new(0x5e1f);
    let mut families = Vec::new();
    for (what, (m, columns)) in symmetric() {
        let pairs = (0..PAIRS).map(|_| (disguise(&mut random, m, &columns), disguise(&mut random, m, &columns))).collect();
        families.push(Family { kind: what.to_string(), n: columns.len(), m, same: true, pairs });
    }
    families
}

/// Full factorials of every size against disguises of themselves: run tables in which no factor follows from the others.
#[cfg(feature = "beside")]
pub fn full_factorials() -> Vec<Family> {
    (1..=7).map(|m| same(m, m, "full factorial", Draw::Any)).collect()
}
