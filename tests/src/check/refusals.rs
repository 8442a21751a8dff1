//! What is turned away: document 01's table, for the calls on words, columns, run tables and design records.

use super::bits::letters;
use super::columns::{last_letters, rank_is};
use super::plan::{columns_and_mask, plan_bytes, stride, Form, Given, Plan};
use super::runs::{different, regular};
use super::words::independent;

/// The fewest letters that a word may have.
pub const SHORTEST_WORD: usize = 3;

/// 1 or 2 if the sizes are refused, else 0.
pub fn of_sizes(n: usize, g: usize) -> u8 {
    if !(1..=16).contains(&n) {
        return 1;
    }
    if g >= n || n - g > 7 {
        return 2;
    }
    0
}

/// How many numbers a list of this form has.
pub fn count(n: usize, g: usize, form: Form) -> usize {
    match form {
        Form::Words => g,
        Form::Columns => stride(n),
        Form::Runs => 1 << (n - g),
    }
}

/// Whether 5 applies to a list of the right count: a column is above 2^M - 1, a word or a run has a bit past factor N, a sign bit is not below
/// G, or a mask has a bit past factor N or at a factor that is the last letter of no word, which the columns alone decide.
fn out_of_range(given: &Given) -> bool {
    let &Given { n, g, form, ref list, signs } = given;
    match form {
        Form::Words => list.iter().any(|word| word >> n != 0) || signs >> g != 0,
        Form::Columns => {
            let (columns, mask) = columns_and_mask(n, list);
            columns.iter().any(|column| column >> (n - g) != 0) || mask & !last_letters(columns) != 0
        }
        Form::Runs => list.iter().any(|run| run >> n != 0),
    }
}

/// Whether 6 applies: words dependent, columns of rank below M, runs repeated or not regular.
fn degenerate(given: &Given) -> bool {
    let &Given { n, g, form, ref list, .. } = given;
    match form {
        Form::Words => !independent(list),
        Form::Columns => !rank_is(n - g, columns_and_mask(n, list).0),
        Form::Runs => !different(list) || !regular(list),
    }
}

/// The plan that a list gives, or the lowest number of document 01's table that applies.
pub fn accepted(given: &Given) -> Result<Plan, u8> {
    let &Given { n, g, form, ref list, .. } = given;
    let sizes = of_sizes(n, g);
    if sizes != 0 {
        return Err(sizes);
    }
    if list.len() != count(n, g, form) {
        return Err(4);
    }
    if out_of_range(given) {
        return Err(5);
    }
    if degenerate(given) {
        return Err(6);
    }
    let plan = Plan::new(given);
    if plan.words.iter().any(|&word| letters(word) < SHORTEST_WORD) {
        return Err(7);
    }
    Ok(plan)
}

/// The plan of N columns and a mask in bytes, or the lowest number that applies.
pub fn accepted_bytes(n: usize, g: usize, bytes: &[u32]) -> Result<Plan, u8> {
    accepted(&Given { n, g, form: Form::Columns, list: bytes.to_vec(), signs: 0 })
}

/// The same of a design record: its factor count, its basic count, its sixteen columns and its mask.
pub fn accepted_record(n: usize, g: usize, record: &[u32]) -> Result<Plan, u8> {
    let sizes = of_sizes(n, g);
    if sizes != 0 {
        return Err(sizes);
    }
    let (counts, columns, mask) = (&record[..2], &record[2..18], record[18]);
    if counts != [n as u32, (n - g) as u32] {
        return Err(4);
    }
    if columns[n..].iter().any(|&column| column != 0) {
        return Err(5);
    }
    accepted_bytes(n, g, &plan_bytes(&columns[..n], mask))
}

/// The number under which several plans in bytes, one after another, are refused, 0 if they are not.
pub fn of_plans(n: usize, g: usize, list: &[u32]) -> u8 {
    let sizes = of_sizes(n, g);
    if sizes != 0 {
        return sizes;
    }
    if list.len() % stride(n) != 0 {
        return 4;
    }
    list.chunks(stride(n)).map(|plan| accepted_bytes(n, g, plan).err().unwrap_or(0)).fold(0, lowest)
}

/// The lowest number that applies, over two arguments: 0 stands for none.
pub fn lowest(first: u8, second: u8) -> u8 {
    if first == 0 || second == 0 {
        return first.max(second);
    }
    first.min(second)
}
