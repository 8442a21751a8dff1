//! One exported call on a list, with a result list that is guarded on both sides.

use crate::check::plan::{Form, Given, Question};
use crate::guarded::*;
use planner::Signs;

/// Places before and after the lent list that no call may touch.
pub(crate) const MARGIN: usize = 4;

/// What a call answered, with signs if it gives words, else 0, and the whole guarded list before and after it.
pub struct Outcome {
    pub answer: u8,
    pub signs: u32,
    pub before: Vec<u32>,
    pub after: Vec<u32>,
}

/// What the calls on a form answer.
pub fn questions(form: Form) -> &'static [Question] {
    use Question::*;
    match form {
        Form::Words => &[Columns, Runs, Pattern, Resolution, Distances],
        Form::Columns => &[Words, Runs, Pattern, Resolution, Distances],
        Form::Runs => &[Columns, Pattern, Resolution, Distances],
    }
}

/// Every call on one plan, by number: used to count which refusals were reached.
pub fn every_call() -> Vec<(Form, Question)> {
    let forms = [Form::Words, Form::Columns, Form::Runs];
    forms.iter().flat_map(|&form| questions(form).iter().map(move |&question| (form, question))).collect()
}

/// The exported function's name.
pub fn name(form: Form, question: Question) -> String {
    format!("plan_{question:?}_of_{form:?}").to_lowercase()
}

pub(crate) fn bytes(list: &[u32]) -> Vec<u8> {
    list.iter().map(|&x| u8::try_from(x).expect("a column is a byte")).collect()
}

pub(crate) fn shorts(list: &[u32]) -> Vec<u16> {
    list.iter().map(|&x| u16::try_from(x).expect("a word or a run has 16 bits")).collect()
}

/// Guard values: different from place to place, and not 0.
pub(crate) fn guarded(places: usize) -> Vec<u32> {
    (0..places + 2 * MARGIN).map(|i| 0xa1 + (i as u32 * 37) % 89).collect()
}

fn lend_bytes(places: usize, call: impl FnOnce(&mut [u8]) -> u8) -> Outcome {
    let before = guarded(places);
    let mut lent = bytes(&before);
    let answer = call(&mut lent[MARGIN..MARGIN + places]);
    Outcome { answer, signs: 0, before, after: lent.iter().map(|&x| x.into()).collect() }
}

/// A call that gives words answers their signs too.
fn lend_words(places: usize, call: impl FnOnce(&mut [u16]) -> Signs) -> Outcome {
    let before: Vec<u32> = guarded(places).iter().map(|x| x * 257).collect();
    let mut lent = shorts(&before);
    let Signs { number, signs } = call(&mut lent[MARGIN..MARGIN + places]);
    Outcome { answer: number, signs: signs.into(), before, after: lent.iter().map(|&x| x.into()).collect() }
}

fn lend_shorts(places: usize, call: impl FnOnce(&mut [u16]) -> u8) -> Outcome {
    lend_words(places, |lent| Signs { number: call(lent), signs: 0 })
}

fn call_on_words(n: usize, g: usize, words: &[u16], signs: u16, question: Question, places: usize) -> Outcome {
    match question {
        Question::Columns => lend_bytes(places, |lent| plan_columns_of_words(n, g, words, signs, lent)),
        Question::Runs => lend_shorts(places, |lent| plan_runs_of_words(n, g, words, signs, lent)),
        Question::Pattern => lend_shorts(places, |lent| plan_pattern_of_words(n, g, words, signs, lent)),
        Question::Resolution => lend_bytes(places, |lent| plan_resolution_of_words(n, g, words, signs, lent)),
        Question::Distances => lend_shorts(places, |lent| plan_distances_of_words(n, g, words, signs, lent)),
        Question::Words => panic!("no call gives words of words"),
    }
}

fn call_on_columns(n: usize, g: usize, plan: &[u8], question: Question, places: usize) -> Outcome {
    match question {
        Question::Words => lend_words(places, |lent| plan_words_of_columns(n, g, plan, lent)),
        Question::Runs => lend_shorts(places, |lent| plan_runs_of_columns(n, g, plan, lent)),
        Question::Pattern => lend_shorts(places, |lent| plan_pattern_of_columns(n, g, plan, lent)),
        Question::Resolution => lend_bytes(places, |lent| plan_resolution_of_columns(n, g, plan, lent)),
        Question::Distances => lend_shorts(places, |lent| plan_distances_of_columns(n, g, plan, lent)),
        Question::Columns => panic!("no call gives columns of columns"),
    }
}

fn call_on_runs(n: usize, g: usize, runs: &[u16], question: Question, places: usize) -> Outcome {
    match question {
        Question::Columns => lend_bytes(places, |lent| plan_columns_of_runs(n, g, runs, lent)),
        Question::Pattern => lend_shorts(places, |lent| plan_pattern_of_runs(n, g, runs, lent)),
        Question::Resolution => lend_bytes(places, |lent| plan_resolution_of_runs(n, g, runs, lent)),
        Question::Distances => lend_shorts(places, |lent| plan_distances_of_runs(n, g, runs, lent)),
        Question::Words | Question::Runs => panic!("no call gives {question:?} of runs"),
    }
}

/// The call that answers the question about the given list, with a lent list of this many places.
pub fn call(given: &Given, question: Question, places: usize) -> Outcome {
    let &Given { n, g, form, ref list, signs } = given;
    match form {
        Form::Words => call_on_words(n, g, &shorts(list), shorts(&[signs])[0], question, places),
        Form::Columns => call_on_columns(n, g, &bytes(list), question, places),
        Form::Runs => call_on_runs(n, g, &shorts(list), question, places),
    }
}

impl Outcome {
    /// The guarded list that an accepted call leaves: its result in the lent list's first places, all else as before.
    pub fn filled(&self, result: &[u32]) -> Vec<u32> {
        let mut list = self.before.clone();
        list[MARGIN..MARGIN + result.len()].copy_from_slice(result);
        list
    }

    /// The first places of the lent list.
    pub fn result(&self, places: usize) -> Vec<u32> {
        self.after[MARGIN..MARGIN + places].to_vec()
    }
}
