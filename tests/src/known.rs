//! Plans of which the checking program has worked out what decides a comparison, once for many pairs.

use crate::check::columns::{rank_is, total};
use crate::check::labels::{label, Label};
use crate::check::measures::pattern;
use crate::check::renamings::renamed;
use crate::check::runs::runs_of_columns;
use crate::check::words::words_of;
use crate::random::Random;

/// A plan by its columns, with its runs, its pattern and its canonical label.
#[derive(Clone, Debug)]
pub struct Known {
    pub n: usize,
    pub m: usize,
    pub columns: Vec<u32>,
    pub runs: Vec<u32>,
    pub pattern: Vec<u32>,
    pub label: Label,
}

impl Known {
    /// The plan of columns of rank m, none 0 and no two equal.
    pub fn new(m: usize, columns: &[u32]) -> Known {
        let n = columns.len();
        let runs = runs_of_columns(m, columns);
        let pattern = pattern(n, &words_of(n, &runs));
        let label = label(n, &runs);
        Known { n, m, columns: columns.to_vec(), runs, pattern, label }
    }

    /// The first length where the patterns differ, 0 if they agree.
    pub fn first_difference(&self, other: &Known) -> usize {
        (1..=self.n).find(|&length| self.pattern[length - 1] != other.pattern[length - 1]).unwrap_or(0)
    }

    /// A plan that is the same: the factors renamed, the columns written in other basic factors.
    pub fn scrambled(&self, random: &mut Random) -> Known {
        let mut columns = in_other_basics(random, self.m, &self.columns);
        random.shuffle(&mut columns);
        let runs = runs_of_columns(self.m, &columns);
        Known { columns, runs, ..self.clone() }
    }

    /// The plan with one column changed. None if the plan has every column, or if every try lowers the rank.
    pub fn near_miss(&self, random: &mut Random) -> Option<Known> {
        let unused: Vec<u32> = (1..1 << self.m).filter(|column| !self.columns.contains(column)).collect();
        for _ in 0..20 * unused.len().min(1) {
            let mut columns = self.columns.clone();
            columns[random.below(self.n)] = random.pick(&unused);
            if rank_is(self.m, &columns) {
                return Some(Known::new(self.m, &columns));
            }
        }
        None
    }

    /// The runs in any order, with the levels of some factors switched.
    pub fn table(&self, random: &mut Random) -> Vec<u32> {
        let switched = random.below(1 << self.n) as u32;
        let mut table: Vec<u32> = self.runs.iter().map(|run| run ^ switched).collect();
        random.shuffle(&mut table);
        table
    }
}

/// The columns with basic factors replaced by other independent ones: a linear map of rank m, at random.
pub fn in_other_basics(random: &mut Random, m: usize, columns: &[u32]) -> Vec<u32> {
    loop {
        let images: Vec<u32> = (0..m).map(|_| random.below(1 << m) as u32).collect();
        if rank_is(m, &images) {
            return columns.iter().map(|&column| total(&images, column)).collect();
        }
    }
}

/// The names of n factors in any order.
pub fn renaming(random: &mut Random, n: usize) -> Vec<u32> {
    let mut names: Vec<u32> = (0..n as u32).collect();
    random.shuffle(&mut names);
    names
}

/// The table with its factors renamed, levels switched and runs shuffled: the names, the mask and the table.
pub fn disguised(random: &mut Random, n: usize, runs: &[u32]) -> (Vec<u32>, u32, Vec<u32>) {
    let names = renaming(random, n);
    let mask = random.below(1 << n) as u32;
    let mut table: Vec<u32> = runs.iter().map(|&run| renamed(&names, run) ^ mask).collect();
    random.shuffle(&mut table);
    (names, mask, table)
}

/// The standard columns of every plan of n factors, m of them basic, without words of fewer than three letters: each plan once.
pub fn every_plan(n: usize, m: usize) -> Vec<Vec<u32>> {
    fn extend(n: usize, m: usize, basics: usize, columns: &mut Vec<u32>, plans: &mut Vec<Vec<u32>>) {
        if columns.len() == n {
            plans.extend((basics == m).then(|| columns.clone()));
            return;
        }
        for column in (1..=1 << basics).filter(|&column| column < 1 << m) {
            if !columns.contains(&column) {
                columns.push(column);
                extend(n, m, basics + usize::from(column == 1 << basics), columns, plans);
                columns.pop();
            }
        }
    }
    let mut plans = Vec::new();
    extend(n, m, 0, &mut Vec::new(), &mut plans);
    plans
}
