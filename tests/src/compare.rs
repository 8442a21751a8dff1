//! Exported calls held against the checking program.

use crate::calls::{call, every_call, name, questions};
use crate::check::measures::{first_difference, pattern, second_is_better};
use crate::check::plan::{places, Form, Given, Plan, Question};
use crate::check::refusals::{accepted, lowest, of_sizes};
use crate::guarded::{plan_aberration_refusal, plan_less_aberration};
use crate::random::Random;

/// What a call on one plan may answer: 0, or the number of a refusal.
pub const ANSWERS: [u8; 8] = [0, 1, 2, 4, 5, 6, 7, 8];

/// The same for the comparison of two lists of words, which lends no result.
pub const RANKING_ANSWERS: [u8; 7] = [0, 1, 2, 4, 5, 6, 7];

/// Which result lists a comparison lends: every kind to every call, to each call one kind, taken at random, or every length around the one
/// that is enough.
#[derive(Clone, Copy, PartialEq, Eq)]
pub enum Lending {
    Every,
    AnyOne,
    Around,
}

/// Lengths of lists around the one that is enough, and far from it.
pub fn around(enough: usize) -> Vec<usize> {
    let mut lengths = vec![0, 1, enough.saturating_sub(2), enough.saturating_sub(1), enough, enough + 1, enough + 2, 200];
    lengths.sort();
    lengths.dedup();
    lengths
}

/// How often each call gave each answer.
pub struct Tally {
    counts: Vec<[u64; 9]>,
    random: Random,
}

impl Tally {
    pub fn new() -> Tally {
        Tally { counts: vec![[0; 9]; every_call().len()], random: Random::new(0x510e_527f) }
    }

    /// How often the call gave this answer.
    pub fn reached(&self, form: Form, question: Question, answer: u8) -> u64 {
        let place = every_call().iter().position(|&call| call == (form, question)).expect("an exported call");
        self.counts[place][answer as usize]
    }

    /// Fails unless every call on the form gave each of these answers.
    pub fn assert_reached(&self, form: Form, answers: &[u8]) {
        for &question in questions(form) {
            for &answer in answers {
                assert!(self.reached(form, question, answer) > 0, "{} never answered {answer}", name(form, question));
            }
        }
    }

    fn add(&mut self, form: Form, question: Question, answer: u8) {
        let place = every_call().iter().position(|&call| call == (form, question)).expect("an exported call");
        self.counts[place][answer as usize] += 1;
    }
}

impl Default for Tally {
    fn default() -> Tally {
        Tally::new()
    }
}

/// Lengths of lent lists to try: one too short, just enough, longer. Where the sizes are refused no length is right.
fn lengths(given: &Given, question: Question, lending: Lending) -> Vec<usize> {
    if of_sizes(given.n, given.g) != 0 {
        return vec![0, 1, 200];
    }
    let enough = places(given.n, given.g, question);
    if lending == Lending::Around {
        return around(enough);
    }
    let mut lengths = vec![enough + 3, enough];
    if enough > 0 {
        lengths.push(enough - 1);
    }
    lengths
}

/// Compares one call with what is expected of it, and returns its answer.
fn compare_call(given: &Given, expected: &Result<Plan, u8>, question: Question, lent: usize) -> u8 {
    let outcome = call(given, question, lent);
    let (number, signs, list) = match expected {
        Err(number) => (*number, 0, outcome.before.clone()),
        Ok(plan) if lent < places(plan.n, plan.g, question) => (8, 0, outcome.before.clone()),
        Ok(plan) if question == Question::Words => (0, plan.signs(), outcome.filled(&plan.answer(question))),
        Ok(plan) => (0, 0, outcome.filled(&plan.answer(question))),
    };
    assert!(
        (outcome.answer, outcome.signs) == (number, signs) && outcome.after == list,
        "{} lent {lent} places\n plan: {given:?}\n expected: {number}, signs {signs} {list:?}\n found: {}, signs {} {:?}",
        name(given.form, question),
        outcome.answer,
        outcome.signs,
        outcome.after,
    );
    number
}

/// Compares every call on the given list with the checking program.
pub fn compare(given: &Given, lending: Lending, tally: &mut Tally) {
    let expected = accepted(given);
    for &question in questions(given.form) {
        let lengths = lengths(given, question, lending);
        if lending == Lending::AnyOne {
            let lent = lengths[tally.random.below(lengths.len())];
            let answer = compare_call(given, &expected, question, lent);
            tally.add(given.form, question, answer);
            continue;
        }
        for lent in lengths {
            let answer = compare_call(given, &expected, question, lent);
            tally.add(given.form, question, answer);
        }
    }
}

/// What the comparison of two lists of words by aberration came to.
#[derive(Clone, Copy, Debug, PartialEq, Eq)]
pub struct Ranked {
    pub refusal: u8,
    /// the list handed back, 0 if refused
    pub better: u8,
    /// the length that decided, 0 if none did
    pub length: usize,
}

/// The comparison of two lists of words by the checking program.
fn ranked(n: usize, g: usize, first: &[u32], second: &[u32]) -> Ranked {
    let plans = (accepted(&Given::words(n, g, first, 0)), accepted(&Given::words(n, g, second, 0)));
    let (Ok(one), Ok(two)) = &plans else {
        let number = |plan: &Result<Plan, u8>| plan.as_ref().err().copied().unwrap_or(0);
        return Ranked { refusal: lowest(number(&plans.0), number(&plans.1)), better: 0, length: 0 };
    };
    let (one, two) = (pattern(n, &one.words), pattern(n, &two.words));
    let better = if second_is_better(n, &one, &two) { 2 } else { 1 };
    Ranked { refusal: 0, better, length: first_difference(n, &one, &two).unwrap_or(0) }
}

/// Compares the ranking of two lists of words with the checking program, and returns what it came to.
pub fn compare_ranking(n: usize, g: usize, first: &[u32], second: &[u32]) -> Ranked {
    let expected = ranked(n, g, first, second);
    let short = |list: &[u32]| list.iter().map(|&x| x as u16).collect::<Vec<u16>>();
    let refusal = plan_aberration_refusal(n, g, &short(first), &short(second));
    let better = plan_less_aberration(n, g, &short(first), &short(second));
    assert!(
        (refusal, better) == (expected.refusal, expected.better),
        "less aberration\n plans: n {n} g {g} {first:?} and {second:?}\n expected: {expected:?}\n found: refusal {refusal} better {better}",
    );
    expected
}
