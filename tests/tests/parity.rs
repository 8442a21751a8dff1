//! Whether a run and a column share an odd number of bits: for all runs and all columns of 7 basic factors, and how it is worked out. It is asked by the
//! calls on run tables: here of eight factors, of which the first seven are basic and the eighth has the column. Run j then has the basic factors at the
//! bits of j low.

use plan_tests::check::plan::{plan_bytes, Form, Given, Question};
use plan_tests::check::runs::runs_of_columns;
use plan_tests::compare::{compare, Lending, Tally};
use plan_tests::guarded::plan_columns_of_runs;
use plan_tests::random::Random;

const N: usize = 8;
const G: usize = 1;
const M: usize = 7;

/// The columns of the eight factors.
fn columns(column: u32) -> Vec<u32> {
    (0..M).map(|i| 1 << i).chain([column]).collect()
}

/// The table of the eight factors, run j at place j.
fn table(column: u32) -> Vec<u32> {
    runs_of_columns(M, &columns(column))
}

fn given(list: Vec<u32>) -> Given {
    Given::runs(N, G, &list)
}

/// The call's answer and its list, which has zeros before it.
fn columns_of_runs(list: &[u32]) -> (u8, Vec<u32>) {
    let runs: Vec<u16> = list.iter().map(|&run| run as u16).collect();
    let mut places = [0; N + 2];
    let number = plan_columns_of_runs(N, G, &runs, &mut places);
    (number, places.iter().map(|&column| column.into()).collect())
}

#[test]
fn every_run_and_every_column_of_7_basic_factors_share_what_the_checking_program_says() {
    let mut tally = Tally::new();
    let mut random = Random::new(0x0dd);
    for column in 0..1 << M {
        let mut runs = table(column);
        // column 0 is a word of one letter, a basic factor's column one of two
        let expected = if column.count_ones() < 2 { (7, vec![0; N + 2]) } else { (0, plan_bytes(&columns(column), 0)) };
        assert_eq!(columns_of_runs(&runs), expected, "column {column}");
        compare(&given(runs.clone()), Lending::Every, &mut tally);
        let switched = random.below(1 << N) as u32;
        runs.iter_mut().for_each(|run| *run ^= switched);
        random.shuffle(&mut runs);
        compare(&given(runs), Lending::Every, &mut tally);
    }
    tally.assert_reached(Form::Runs, &[0, 7, 8]);
}

#[test]
fn of_every_column_the_level_of_every_run_counts() {
    let mut tally = Tally::new();
    for column in 0..1 << M {
        for j in 0..1 << M {
            let mut runs = table(column);
            runs[j] ^= 1 << M;
            compare(&given(runs), Lending::AnyOne, &mut tally);
        }
    }
    assert_eq!(tally.reached(Form::Runs, Question::Columns, 6), 1 << (M + M));
}

#[test]
fn the_parity_is_worked_out_by_and_exclusive_or_and_shifts_alone() {
    let source = include_str!("../../crates/bits/src/lib.rt");
    let (_, rest) = source.split_once("pub fn parity(j: u16, c: u16) -> u16\n").expect("the function");
    let (_, rest) = rest.split_once("\n{\n").expect("its body");
    let (body, _) = rest.split_once("\n}\n").expect("its end");
    let words = body.split(|c: char| c.is_whitespace() || "();".contains(c)).filter(|word| !word.is_empty());
    let other: Vec<&str> =
        words.filter(|word| word.parse::<u8>().is_err() && !["let", "x", "=", "j", "c", "&", "^", ">>"].contains(word)).collect();
    assert!(other.is_empty(), "{other:?} in\n{body}");
}
