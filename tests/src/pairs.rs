//! One exported call on two plans: their comparison with a guarded witness list, and the check of a claimed witness.

use crate::calls::{bytes, guarded, shorts, MARGIN};
use crate::check::plan::{Form, Given};
use crate::guarded::{plan_check_witness, plan_compare_columns, plan_compare_runs};
use planner::{PLAN_DIFFERENT, PLAN_NO, PLAN_SAME, PLAN_YES};

/// Two plans in one form, columns with a mask in bytes or runs, with their sizes, as a call takes them.
#[derive(Clone, Debug, PartialEq, Eq)]
pub struct Pair {
    pub n: usize,
    pub g: usize,
    pub form: Form,
    pub first: Vec<u32>,
    pub second: Vec<u32>,
}

impl Pair {
    /// One of the two lists, as a call on one plan takes it.
    pub fn given(&self, list: &[u32]) -> Given {
        Given { n: self.n, g: self.g, form: self.form, list: list.to_vec(), signs: 0 }
    }
}

/// What a comparison answers.
#[derive(Clone, Copy, Debug, PartialEq, Eq)]
pub enum Answer {
    /// with the witness's mask
    Same(u32),
    /// with the first length where the patterns differ, 0 if they agree
    Different(usize),
    /// with the refusal's number
    Refused(u8),
}

/// What the check of a witness answers.
#[derive(Clone, Copy, Debug, PartialEq, Eq)]
pub enum Verdict {
    Yes,
    No,
    Refused(u8),
}

/// What a comparison answered, and the whole guarded witness list before and after it.
#[derive(Debug)]
pub struct Compared {
    pub answer: Answer,
    pub before: Vec<u32>,
    pub after: Vec<u32>,
}

fn answer(number: u32) -> Answer {
    match number {
        1..=8 => Answer::Refused(number as u8),
        PLAN_SAME..=0x1_ffff => Answer::Same(number - PLAN_SAME),
        PLAN_DIFFERENT..=0x2_0010 => Answer::Different((number - PLAN_DIFFERENT) as usize),
        _ => panic!("a comparison answered {number:#x}"),
    }
}

/// The comparison of the pair, with a witness list of this many places. Fails if the call changes a list that it reads.
pub fn call_comparison(pair: &Pair, places: usize) -> Compared {
    let Pair { n, g, form, first, second } = pair;
    let before = guarded(places);
    let mut lent = bytes(&before);
    let witness = &mut lent[MARGIN..MARGIN + places];
    let (number, unchanged) = match form {
        Form::Columns => {
            let lists = (bytes(first), bytes(second));
            (plan_compare_columns(*n, *g, &lists.0, &lists.1, witness), lists == (bytes(first), bytes(second)))
        }
        Form::Runs => {
            let lists = (shorts(first), shorts(second));
            (plan_compare_runs(*n, *g, &lists.0, &lists.1, witness), lists == (shorts(first), shorts(second)))
        }
        Form::Words => panic!("no call compares lists of words"),
    };
    assert!(unchanged, "a comparison changed what it reads: {pair:?}");
    Compared { answer: answer(number), before, after: lent.iter().map(|&name| name.into()).collect() }
}

impl Compared {
    /// The first n names of the lent list.
    pub fn names(&self, n: usize) -> Vec<u32> {
        self.after[MARGIN..MARGIN + n].to_vec()
    }

    /// Whether only the first n places of the lent list may have changed.
    pub fn rest_is_untouched(&self, n: usize) -> bool {
        self.before[..MARGIN] == self.after[..MARGIN] && self.before[MARGIN + n..] == self.after[MARGIN + n..]
    }
}

/// The check of a claimed witness between the pair, which is of run tables.
pub fn call_check(pair: &Pair, names: &[u32], mask: u32) -> Verdict {
    assert_eq!(pair.form, Form::Runs, "a witness is checked between run tables");
    let mask = u16::try_from(mask).expect("a mask has 16 bits");
    match plan_check_witness(pair.n, pair.g, &shorts(&pair.first), &shorts(&pair.second), &bytes(names), mask) {
        number @ 1..=8 => Verdict::Refused(number as u8),
        PLAN_YES => Verdict::Yes,
        PLAN_NO => Verdict::No,
        number => panic!("the check of a witness answered {number:#x}"),
    }
}
