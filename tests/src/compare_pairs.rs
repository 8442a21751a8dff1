//! Comparisons of two plans held against the checking program.

use crate::check::plan::{columns_and_mask, plan_bytes, Form, Plan};
use crate::check::refusals::{accepted, lowest};
use crate::check::renamings::is_witness;
use crate::check::runs::switched_runs;
use crate::known::Known;
use crate::pairs::{call_check, call_comparison, Answer, Pair, Verdict};
use crate::random::Random;
use crate::samples::any_mask;

/// What a comparison must answer. Which witness it gives for plans that are the same is its own choice.
#[derive(Clone, Copy, Debug, PartialEq, Eq)]
pub enum Expected {
    Same,
    Different(usize),
    Refused(u8),
}

/// How often each kind of answer was expected, and given.
#[derive(Debug, Default)]
pub struct Counts {
    pub same: usize,
    pub different: usize,
    /// different, though the patterns agree
    pub alike: usize,
    pub refused: [usize; 9],
}

impl Counts {
    /// The pairs that were compared and not refused.
    pub fn decided(&self) -> usize {
        self.same + self.different
    }

    fn add(&mut self, expected: Expected) {
        match expected {
            Expected::Same => self.same += 1,
            Expected::Different(length) => {
                self.different += 1;
                self.alike += usize::from(length == 0);
            }
            Expected::Refused(number) => self.refused[number as usize] += 1,
        }
    }
}

/// The runs of a list that is a plan.
fn runs(pair: &Pair, list: &[u32]) -> Vec<u32> {
    match pair.form {
        Form::Columns => {
            let (columns, mask) = columns_and_mask(pair.n, list);
            switched_runs(pair.n - pair.g, columns, mask)
        }
        _ => list.to_vec(),
    }
}

/// Whether both plans are given by columns and have mask 0.
fn unswitched(pair: &Pair) -> bool {
    pair.form == Form::Columns && [&pair.first, &pair.second].iter().all(|list| columns_and_mask(pair.n, list).1 == 0)
}

/// Fails unless the comparison's witness turns the first plan's runs into the second's, and the check of a witness says so; and unless it
/// switches nothing between plans of mask 0.
fn confirm(pair: &Pair, names: &[u32], mask: u32) {
    let (first, second) = (runs(pair, &pair.first), runs(pair, &pair.second));
    assert!(is_witness(pair.n, &first, &second, names, mask), "no witness: {names:?} and {mask:#x} for {pair:?}");
    assert!(!unswitched(pair) || mask == 0, "switches {mask:#x} between masks 0: {pair:?}");
    let tables = Pair { form: Form::Runs, first, second, ..*pair };
    assert_eq!(call_check(&tables, names, mask), Verdict::Yes, "check of {names:?} and {mask:#x} for {tables:?}");
}

/// Compares one call with what is expected of it: the answer, the witness run by run, and the places that it may not touch.
pub fn compare_pair(pair: &Pair, expected: Expected, places: usize, counts: &mut Counts) {
    let found = call_comparison(pair, places);
    let written = if expected == Expected::Same { pair.n } else { 0 };
    let agrees = match (expected, found.answer) {
        (Expected::Same, Answer::Same(_)) => true,
        (Expected::Different(length), Answer::Different(answered)) => length == answered,
        (Expected::Refused(number), Answer::Refused(answered)) => number == answered,
        _ => false,
    };
    assert!(
        agrees && found.rest_is_untouched(written),
        "comparison lent {places} places\n pair: {pair:?}\n expected: {expected:?}\n found: {found:?}"
    );
    if let Answer::Same(mask) = found.answer {
        confirm(pair, &found.names(pair.n), mask);
    }
    counts.add(expected);
}

/// What the comparison of two plans must answer, by their labels and patterns.
pub fn expected(first: &Known, second: &Known) -> Expected {
    match first.label == second.label {
        true => Expected::Same,
        false => Expected::Different(first.first_difference(second)),
    }
}

/// Compares two plans of one size as columns or as run tables, with a witness list just long enough or longer; now and then also with one
/// that is too short.
pub fn compare_known(random: &mut Random, first: &Known, second: &Known, counts: &mut Counts) {
    let (n, g) = (first.n, first.n - first.m);
    let pair = match random.below(2) {
        0 => {
            let mut bytes = |plan: &Known| plan_bytes(&plan.columns, any_mask(random, &plan.columns));
            Pair { n, g, form: Form::Columns, first: bytes(first), second: bytes(second) }
        }
        _ => Pair { n, g, form: Form::Runs, first: first.table(random), second: second.table(random) },
    };
    let more = if random.below(4) == 0 { random.between(1, 5) } else { 0 };
    compare_pair(&pair, expected(first, second), n + more, counts);
    if random.below(16) == 0 {
        compare_pair(&pair, Expected::Refused(8), random.below(n), counts);
    }
}

/// The number under which a comparison of any two lists is refused, 0 if it is not, with a witness list of this many places.
pub fn refusal(pair: &Pair, places: usize) -> u8 {
    let number = |list: &[u32]| accepted(&pair.given(list)).err().unwrap_or(0);
    match lowest(number(&pair.first), number(&pair.second)) {
        0 if places < pair.n => 8,
        number => number,
    }
}

/// The plan of a list that is in order, by its standard columns.
fn known(pair: &Pair, list: &[u32]) -> Known {
    Known::new(pair.n - pair.g, &Plan::new(&pair.given(list)).standard())
}

/// Compares any two lists, with a witness list of this many places.
pub fn compare_any(pair: &Pair, places: usize, counts: &mut Counts) {
    let expected = match refusal(pair, places) {
        0 => expected(&known(pair, &pair.first), &known(pair, &pair.second)),
        number => Expected::Refused(number),
    };
    compare_pair(pair, expected, places, counts);
}
