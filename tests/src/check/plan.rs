//! A plan read from one of its three forms, and everything that a call may answer about it.

use super::bits::odd;
use super::columns::standard;
use super::measures::{distances, pattern, resolution};
use super::runs::{plan_of_words, switched_runs};
use super::words::{is_last_letter, reduced, words_of};

/// The three forms of a plan.
#[derive(Clone, Copy, Debug, PartialEq, Eq)]
pub enum Form {
    Words,
    Columns,
    Runs,
}

/// A plan in one of its forms, with its sizes, as a call takes it: words with their signs, the bytes of columns and a mask, or runs.
#[derive(Clone, Debug, PartialEq, Eq)]
pub struct Given {
    pub n: usize,
    pub g: usize,
    pub form: Form,
    pub list: Vec<u32>,
    /// of the words, bit i for word i, 1 for minus; in another form 0
    pub signs: u32,
}

impl Given {
    /// Words and their signs.
    pub fn words(n: usize, g: usize, words: &[u32], signs: u32) -> Given {
        Given { n, g, form: Form::Words, list: words.to_vec(), signs }
    }

    /// Columns and a mask.
    pub fn columns(n: usize, g: usize, columns: &[u32], mask: u32) -> Given {
        Given { n, g, form: Form::Columns, list: plan_bytes(columns, mask), signs: 0 }
    }

    /// A run table.
    pub fn runs(n: usize, g: usize, runs: &[u32]) -> Given {
        Given { n, g, form: Form::Runs, list: runs.to_vec(), signs: 0 }
    }
}

/// How many bytes a plan of n factors has.
pub fn stride(n: usize) -> usize {
    n + 2
}

/// The bytes of a plan: its columns, then the two bytes of its mask, low byte first.
pub fn plan_bytes(columns: &[u32], mask: u32) -> Vec<u32> {
    [columns, &[mask & 0xff, mask >> 8]].concat()
}

/// The columns and the mask of a plan of n factors in bytes.
pub fn columns_and_mask(n: usize, bytes: &[u32]) -> (&[u32], u32) {
    (&bytes[..n], bytes[n] + 0x100 * bytes[n + 1])
}

/// What a call answers about a plan.
#[derive(Clone, Copy, Debug, PartialEq, Eq)]
pub enum Question {
    Words,
    Columns,
    Runs,
    Pattern,
    Resolution,
    Distances,
}

/// A plan: its sizes, its runs as the list gives them, and all its words.
pub struct Plan {
    pub n: usize,
    pub g: usize,
    pub form: Form,
    pub runs: Vec<u32>,
    pub words: Vec<u32>,
}

impl Plan {
    /// The plan of a list whose count and numbers are in order.
    pub fn new(given: &Given) -> Plan {
        let &Given { n, g, form, ref list, signs } = given;
        let runs = match form {
            Form::Words => plan_of_words(n, list, signs),
            Form::Columns => {
                let (columns, mask) = columns_and_mask(n, list);
                switched_runs(n - g, columns, mask)
            }
            Form::Runs => list.clone(),
        };
        let words = words_of(n, &runs);
        Plan { n, g, form, runs, words }
    }

    /// The standard columns.
    pub fn standard(&self) -> Vec<u32> {
        standard(self.n, &self.words)
    }

    /// The mask that turns the runs of the standard columns into the plan's. Run 0 of columns is all high, so the mask is itself a run of the
    /// plan: the only one in which every factor that is the last letter of no word is high.
    pub fn mask(&self) -> u32 {
        let basic: u32 = (0..self.n).filter(|&f| !is_last_letter(&self.words, f)).map(|f| 1 << f).sum();
        let found: Vec<u32> = self.runs.iter().copied().filter(|run| run & basic == 0).collect();
        assert_eq!(found.len(), 1, "runs with the factors {basic:#x} high among {:?}", self.runs);
        found[0]
    }

    /// The signs of the reduced words, bit i for word i: 1 where it meets the runs in an odd number of low levels.
    pub fn signs(&self) -> u32 {
        let words = reduced(self.n, &self.words);
        words.iter().enumerate().filter(|(_, &word)| odd(self.runs[0], word)).map(|(i, _)| 1 << i).sum()
    }

    /// The answer, whole, but for the signs. The runs of words are those of the standard columns; the runs of columns are in the order of run
    /// 0, 1 and so on.
    pub fn answer(&self, question: Question) -> Vec<u32> {
        match question {
            Question::Words => reduced(self.n, &self.words),
            Question::Columns => plan_bytes(&self.standard(), self.mask()),
            Question::Runs if self.form == Form::Words => switched_runs(self.n - self.g, &self.standard(), self.mask()),
            Question::Runs => self.runs.clone(),
            Question::Pattern => pattern(self.n, &self.words),
            Question::Resolution => vec![resolution(self.n, &self.words)],
            Question::Distances => distances(self.n, &self.runs),
        }
    }
}

/// How many places the answer takes.
pub fn places(n: usize, g: usize, question: Question) -> usize {
    match question {
        Question::Words => g,
        Question::Columns => stride(n),
        Question::Pattern => n,
        Question::Runs => 1 << (n - g),
        Question::Resolution => 1,
        Question::Distances => n + 1,
    }
}
