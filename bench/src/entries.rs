//! Pairs of every size, from the catalogue: entries against themselves, and against the next entries of the same pattern, which are different.

use crate::families::{disguise, pattern_of, Family};
use plan_tests::random::Random;
use planner::plan_catalogue;
use std::collections::BTreeMap;

/// The most pairs of one kind and size, taken at even distances from all.
const MOST: usize = 200;

/// How many of the next entries of its pattern an entry is compared with.
const NEXT: usize = 3;

/// The refusal of a list that has not enough room.
const NO_ROOM: u8 = 9;

/// A plan's columns.
type Columns = Vec<u32>;

/// The smallest resolution of which all entries are taken: 3, but 4 where those of 3 are too many.
fn resolution(n: usize, m: usize) -> usize {
    match m == 7 && n > 12 {
        true => 4,
        false => 3,
    }
}

fn catalogue(n: usize, m: usize) -> Vec<Columns> {
    let mut room = 1 << 10;
    loop {
        let mut list = vec![0; room * (n + 2)];
        let entries = plan_catalogue(n, n - m, resolution(n, m), &mut list);
        if entries.number == 0 {
            return list.chunks(n + 2).take(entries.count).map(|entry| entry[..n].iter().map(|&column| column.into()).collect()).collect();
        }
        assert_eq!(entries.number, NO_ROOM, "the size is accepted");
        room *= 4;
    }
}

/// Each entry with the next ones of its pattern, in both orders.
fn neighbours(m: usize, entries: &[Columns]) -> Vec<(Columns, Columns)> {
    let mut by_pattern: BTreeMap<_, Vec<&Columns>> = BTreeMap::new();
    for entry in entries {
        by_pattern.entry(pattern_of(m, entry)).or_default().push(entry);
    }
    let mut pairs = Vec::new();
    for plans in by_pattern.values() {
        for (i, first) in plans.iter().enumerate() {
            for second in plans[i + 1..].iter().take(NEXT) {
                pairs.push((first.to_vec(), second.to_vec()));
                pairs.push((second.to_vec(), first.to_vec()));
            }
        }
    }
    pairs
}

fn disguised(random: &mut Random, m: usize, pairs: &[(Columns, Columns)]) -> Vec<(Vec<u8>, Vec<u8>)> {
    let step = pairs.len().div_ceil(MOST).max(1);
    pairs.iter().step_by(step).map(|(first, second)| (disguise(random, m, first), disguise(random, m, second))).collect()
}

/// The families of one number of basic factors: of each size the pairs that are the same and those that are different.
pub fn families(m: usize) -> Vec<Family> {
    let mut random = Random::new(0xca7a);
    let mut list = Vec::new();
    for n in m..=16.min((1 << m) - 1) {
        let entries = catalogue(n, m);
        let selves: Vec<_> = entries.iter().map(|entry| (entry.clone(), entry.clone())).collect();
        for (same, pairs) in [(true, selves), (false, neighbours(m, &entries))] {
            list.push(Family { kind: "entries".to_string(), n, m, same, pairs: disguised(&mut random, m, &pairs) });
        }
    }
    list
}
