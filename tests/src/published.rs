//! The rows of document 000's Appendix B, as tests/data has them.

use crate::check::measures::pattern;
use crate::check::runs::runs_of_columns;
use crate::check::words::words_of;

const ROWS: &str = include_str!("../data/appendix-b.txt");
const DISAGREEING: &str = include_str!("../data/appendix-b-disagree.txt");

/// Basic factors of every plan of the appendix: 128 runs.
pub const BASICS: usize = 7;

/// Printed counts begin at words of this many letters.
const FIRST_LENGTH: usize = 4;

/// A printed row: k factors, the added factors' columns, the counts from length 4; none where the text has no counts.
#[derive(Debug)]
pub struct Row {
    pub label: String,
    pub source: String,
    pub k: usize,
    pub runs: usize,
    pub added: Vec<u32>,
    pub counts: Option<Vec<u32>>,
}

/// A row listed as disagreeing, with a reading of it that agrees, if one is known.
#[derive(Debug)]
pub struct Disagreeing {
    pub label: String,
    pub reading: Option<(Vec<u32>, Vec<u32>)>,
    pub reason: String,
}

/// The lines that hold fields, as lists of fields.
fn lines(text: &str) -> impl Iterator<Item = Vec<&str>> {
    let kept = text.lines().filter(|line| !line.is_empty() && !line.starts_with('#'));
    kept.map(|line| line.split('|').map(str::trim).collect())
}

/// The numbers of a field; none if it is a dash.
fn numbers(field: &str) -> Option<Vec<u32>> {
    if field == "-" {
        return None;
    }
    Some(field.split(' ').map(|number| number.parse().expect("a number")).collect())
}

/// Every row of the appendix, and the one that document 01 quotes.
pub fn rows() -> Vec<Row> {
    let row = |fields: Vec<&str>| Row {
        label: fields[0].to_string(),
        source: fields[2].to_string(),
        k: fields[3].parse().expect("a number of factors"),
        runs: fields[4].parse().expect("a number of runs"),
        added: numbers(fields[5]).expect("columns"),
        counts: numbers(fields[6]),
    };
    lines(ROWS).map(row).collect()
}

/// Every row listed as disagreeing.
pub fn disagreeing() -> Vec<Disagreeing> {
    let entry = |fields: Vec<&str>| Disagreeing {
        label: fields[0].to_string(),
        reading: numbers(fields[1]).zip(numbers(fields[2])),
        reason: fields[3].to_string(),
    };
    lines(DISAGREEING).map(entry).collect()
}

/// All columns of a plan with these added ones: the basic factors come first and take 1, 2, 4 and so on.
pub fn columns(added: &[u32]) -> Vec<u32> {
    (0..BASICS).map(|i| 1 << i).chain(added.iter().copied()).collect()
}

/// The pattern that printed counts stand for in a plan of k factors: 0 below length 4 and after the last count.
pub fn printed_pattern(k: usize, counts: &[u32]) -> Vec<u32> {
    let mut pattern = vec![0; FIRST_LENGTH - 1];
    pattern.extend(counts);
    pattern.resize(k.max(pattern.len()), 0);
    pattern
}

/// The pattern of the plan with these added columns, recomputed.
pub fn recomputed(added: &[u32]) -> Vec<u32> {
    let columns = columns(added);
    pattern(columns.len(), &words_of(columns.len(), &runs_of_columns(BASICS, &columns)))
}

/// Whether the recomputed pattern of a row is the printed one.
pub fn agrees(row: &Row) -> bool {
    let printed = row.counts.as_ref().map(|counts| printed_pattern(row.k, counts));
    row.k == BASICS + row.added.len() && row.runs == 1 << BASICS && printed == Some(recomputed(&row.added))
}
