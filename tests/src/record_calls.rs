//! Calls that C cannot make, on design records and with answers by value: the program `records` makes them, and its lines are held against
//! the checking program.

use crate::check::load::{load, refusal, Draws};
use crate::check::measures::{pattern, second_is_better};
use crate::check::plan::{places, Form, Given, Plan, Question};
use crate::check::refusals::{accepted, accepted_record, lowest};
use crate::check::renamings::is_witness;
use crate::check::smallest::smallest;
use crate::known::Known;
use crate::program::{built, output_of, pipe_of};
use std::process::Command;

/// How many numbers a design record has: two counts, sixteen columns and a mask.
pub const RECORD: usize = 19;

/// The place of the mask.
const MASK: usize = 18;

/// The places of a run table.
pub const RUNS: usize = 128;

/// The places of a list of which some are lent, and what stands there before a call.
const LENT: usize = 20;
const NUMBER: u32 = 9_999;
const NAME: u32 = 99;

/// The calls, by the numbers that the program takes for them.
pub const DESIGN_OF_WORDS: usize = 1;
pub const DESIGN_OF_RUNS: usize = 2;
pub const RUNS_OF_WORDS: usize = 3;
pub const RESOLUTION_OF_WORDS: usize = 4;
pub const RESOLUTION_OF_RUNS: usize = 5;
pub const RESOLUTION_OF_COLUMNS: usize = 6;
pub const LESS_ABERRATION: usize = 7;
pub const RUNS_OF_DESIGN: usize = 8;
pub const WORDS_OF_DESIGN: usize = 9;
pub const DISTANCES_OF_DESIGN: usize = 10;
pub const COMPARE_DESIGNS: usize = 11;
pub const FORM_OF_DESIGN: usize = 12;
pub const IS_ENTRY: usize = 13;
pub const LOAD: usize = 14;

/// A call: which one, N, G, a number more, and the lists that it takes.
///
/// The number is the signs of words, where the second list of words begins, how many places are lent, or R. The list of a load is its seed: the
/// low and the high 16 bits.
#[derive(Clone, Debug, PartialEq, Eq)]
pub struct Call {
    pub which: usize,
    pub n: usize,
    pub g: usize,
    pub k: usize,
    pub list: Vec<u32>,
}

/// A name in a line of the program, and the numbers after it.
type Field = (&'static str, Vec<u32>);

/// What a call came to: the first name in its line, and the number after it, 0 if there is none.
pub type Answer = (&'static str, u32);

/// What a call must answer. Where a witness is asked for, any one from the first runs to the second will do.
struct Expected {
    fields: Vec<Field>,
    witness: Option<(Vec<u32>, Vec<u32>)>,
}

/// The design record of columns of m basic factors and a mask.
pub fn record(m: usize, columns: &[u32], mask: u32) -> Vec<u32> {
    let mut record = vec![columns.len() as u32, m as u32];
    record.extend(columns);
    record.resize(RECORD, 0);
    record[MASK] = mask;
    record
}

/// The number of a plan that is refused, 0 of another.
fn number(plan: &Result<Plan, u8>) -> u8 {
    plan.as_ref().err().copied().unwrap_or(0)
}

/// The list with these numbers in its first places.
fn with_first(mut list: Vec<u32>, first: &[u32]) -> Vec<u32> {
    list[..first.len()].copy_from_slice(first);
    list
}

fn design_fields(record: &[u32]) -> [Field; 4] {
    [("factors", vec![record[0]]), ("basics", vec![record[1]]), ("columns", record[2..MASK].to_vec()), ("mask", vec![record[MASK]])]
}

/// A refusal's number, the standard columns and the mask as a record; the record of zeros if refused.
fn design(plan: Result<Plan, u8>) -> Vec<Field> {
    let standard = |plan: &Plan| record(plan.n - plan.g, &plan.standard(), plan.mask());
    let record = plan.as_ref().map_or(vec![0; RECORD], standard);
    [vec![("number", vec![number(&plan).into()])], design_fields(&record).to_vec()].concat()
}

/// A refusal's number, and the run table in 128 places, the unused ones zero; all zero if refused.
fn runs(plan: Result<Plan, u8>) -> Vec<Field> {
    let list = plan.as_ref().map_or(Vec::new(), |plan| plan.answer(Question::Runs));
    vec![("number", vec![number(&plan).into()]), ("runs", with_first(vec![0; RUNS], &list))]
}

/// A refusal's number, and the resolution; 0 if refused.
fn resolution(plan: Result<Plan, u8>) -> Vec<Field> {
    let shortest = plan.as_ref().map_or(vec![0], |plan| plan.answer(Question::Resolution));
    vec![("number", vec![number(&plan).into()]), ("resolution", shortest)]
}

/// A refusal's number, the signs of words if they are asked for, 0 if refused, and the list of which k places were lent.
fn lent(plan: Result<Plan, u8>, question: Question, k: usize) -> Vec<Field> {
    let plan = plan.and_then(|plan| if k < places(plan.n, plan.g, question) { Err(8) } else { Ok(plan) });
    let first = plan.as_ref().map_or(Vec::new(), |plan| plan.answer(question));
    let signs = plan.as_ref().map_or(0, |plan| plan.signs());
    let mut fields = vec![("number", vec![number(&plan).into()])];
    fields.extend((question == Question::Words).then(|| ("signs", vec![signs])));
    fields.push(("list", with_first(vec![NUMBER; LENT], &first)));
    fields
}

/// The words of the better plan, those of the first if neither is; none if one is refused.
fn less_aberration(call: &Call) -> Vec<Field> {
    let Call { n, g, k, ref list, .. } = *call;
    let (first, second) = list.split_at(k);
    let words = match [first, second].map(|words| accepted(&Given::words(n, g, words, 0))) {
        [Ok(one), Ok(two)] if second_is_better(n, &pattern(n, &one.words), &pattern(n, &two.words)) => second,
        [Ok(_), Ok(_)] => first,
        _ => &[],
    };
    vec![("list", words.to_vec())]
}

/// A list of names that no call has touched.
fn untouched() -> Field {
    ("list", vec![NAME; LENT])
}

/// The comparison of two records.
fn compared(call: &Call) -> Expected {
    let Call { n, g, k, ref list, .. } = *call;
    let plans = (accepted_record(n, g, &list[..RECORD]), accepted_record(n, g, &list[RECORD..2 * RECORD]));
    let refused = lowest(number(&plans.0), number(&plans.1));
    let (Ok(first), Ok(second)) = &plans else {
        return Expected { fields: vec![("refused", vec![refused.into()]), untouched()], witness: None };
    };
    if k < n {
        return Expected { fields: vec![("refused", vec![8]), untouched()], witness: None };
    }
    let known = |plan: &Plan| Known::new(n - g, &plan.standard());
    let (one, two) = (known(first), known(second));
    if one.label == two.label {
        return Expected { fields: vec![("same", vec![0]), untouched()], witness: Some((first.runs.clone(), second.runs.clone())) };
    }
    Expected { fields: vec![("different", vec![one.first_difference(&two) as u32]), untouched()], witness: None }
}

/// The smallest form of a plan with its place in a list of records, where the call's other arguments have a number.
fn reduced(plan: Result<Plan, u8>, other: u8, k: usize, among: &[u32]) -> Expected {
    let refused = lowest(number(&plan), other);
    let plan = plan.and_then(|plan| if k < plan.n { Err(8) } else { Ok(plan) });
    let refused = if refused == 0 { number(&plan) } else { refused };
    let form = match &plan {
        Ok(plan) if refused == 0 => record(plan.n - plan.g, &smallest(plan.n - plan.g, &plan.standard()), 0),
        _ => vec![0; RECORD],
    };
    let place = among.chunks(RECORD).position(|record| refused == 0 && record == form).map_or(0, |i| i + 1);
    let start = [("number", vec![refused.into()]), ("switches", vec![0]), ("place", vec![place as u32])];
    let witness = plan.ok().filter(|_| refused == 0).map(|plan| {
        let second = Plan::new(&Given::columns(plan.n, plan.g, &form[2..2 + plan.n], 0));
        (plan.runs, second.runs)
    });
    Expected { fields: [start.to_vec(), design_fields(&form).to_vec(), vec![untouched()]].concat(), witness }
}

/// A refusal's number, the state after the draws, and the load as a record; the seed and the record of zeros if refused.
fn loaded(call: &Call) -> Vec<Field> {
    let Call { n, g, ref list, .. } = *call;
    let (number, mut draws) = (refusal(n, g), Draws::new(list[0] + 0x1_0000 * list[1]));
    let record = if number == 0 { record(n - g, &load(n, g, &mut draws).columns, 0) } else { vec![0; RECORD] };
    [vec![("number", vec![number.into()]), ("state", vec![draws.state()])], design_fields(&record).to_vec()].concat()
}

impl Call {
    /// The call as a line of the program's input.
    pub fn line(&self) -> String {
        let numbers = [self.which, self.n, self.g, self.k].map(|number| number.to_string());
        let list = self.list.iter().map(|number| number.to_string());
        numbers.into_iter().chain(list).collect::<Vec<String>>().join(" ")
    }

    /// The call of a line.
    pub fn read(line: &str) -> Call {
        let numbers: Vec<u32> = line.split(' ').map(|word| word.parse().expect("a number")).collect();
        let [which, n, g, k] = [0, 1, 2, 3].map(|place| numbers[place] as usize);
        Call { which, n, g, k, list: numbers[4..].to_vec() }
    }

    /// The plan of the list; of words with the signs that the number gives.
    fn plan(&self, form: Form) -> Result<Plan, u8> {
        let signs = if form == Form::Words { self.k as u32 } else { 0 };
        accepted(&Given { n: self.n, g: self.g, form, list: self.list.clone(), signs })
    }

    fn record(&self) -> Result<Plan, u8> {
        accepted_record(self.n, self.g, &self.list[..RECORD])
    }

    /// Whether the columns are their plan's smallest form, the sizes are in bounds and no word is shorter than R.
    fn is_entry(&self) -> bool {
        let plan = accepted(&Given::columns(self.n, self.g, &self.list, 0));
        (3..=16).contains(&self.k)
            && plan.is_ok_and(|plan| {
                let short = plan.answer(Question::Pattern).iter().take(self.k - 1).any(|&count| count > 0);
                !short && smallest(self.n - self.g, &plan.standard()) == self.list
            })
    }

    /// What the program must print, by the checking program.
    fn expected(&self) -> Expected {
        let fields = match self.which {
            DESIGN_OF_WORDS => design(self.plan(Form::Words)),
            DESIGN_OF_RUNS => design(self.plan(Form::Runs)),
            RUNS_OF_WORDS => runs(self.plan(Form::Words)),
            RESOLUTION_OF_WORDS => resolution(self.plan(Form::Words)),
            RESOLUTION_OF_RUNS => resolution(self.plan(Form::Runs)),
            RESOLUTION_OF_COLUMNS => resolution(self.plan(Form::Columns)),
            LESS_ABERRATION => less_aberration(self),
            RUNS_OF_DESIGN => runs(self.record()),
            WORDS_OF_DESIGN => lent(self.record(), Question::Words, self.k),
            DISTANCES_OF_DESIGN => lent(self.record(), Question::Distances, self.k),
            COMPARE_DESIGNS => return compared(self),
            FORM_OF_DESIGN => return reduced(self.record(), self.list[RECORD] as u8, self.k, &[]),
            IS_ENTRY => vec![("entry", vec![self.is_entry().into()])],
            LOAD => loaded(self),
            which => panic!("no call {which}"),
        };
        Expected { fields, witness: None }
    }

    /// Whether each record that the call takes has mask 0.
    fn unswitched(&self) -> bool {
        self.list.chunks_exact(RECORD).all(|record| record[MASK] == 0)
    }

    /// Fails unless the program's line is what is expected. Returns its first name with the number after it: a refusal's for most calls.
    fn compare(&self, found: &str) -> Answer {
        let Expected { mut fields, witness } = self.expected();
        if let Some((first, second)) = witness {
            let (place, switching) = if self.which == COMPARE_DESIGNS { (0, "same") } else { (1, "switches") };
            let (names, switches) = (numbers_after(found, "list"), numbers_after(found, switching));
            let (names, switches) = (names.get(..self.n).unwrap_or(&[]), switches.first().copied().unwrap_or(0));
            assert!(is_witness(self.n, &first, &second, names, switches), "no witness\n call: {self:?}\n found: {found}");
            assert!(switches == 0 || !self.unswitched(), "switches between masks 0\n call: {self:?}\n found: {found}");
            fields[place].1[0] = switches;
            let list = fields.last_mut().expect("a line ends with the list that was lent");
            list.1[..self.n].copy_from_slice(names);
        }
        let numbers = |list: &[u32]| list.iter().map(|number| format!(" {number}")).collect::<String>();
        let answer = (fields[0].0, fields[0].1.first().copied().unwrap_or(0));
        let fields: String = fields.iter().map(|(name, list)| format!(" {name}{}", numbers(list))).collect();
        let expected = format!("{}{fields}", self.which);
        assert!(found == expected, "call: {self:?}\n expected: {expected}\n found: {found}");
        answer
    }
}

/// The numbers after a name in a line of the program.
pub fn numbers_after(line: &str, name: &str) -> Vec<u32> {
    let words = line.split(' ').skip_while(|word| *word != name).skip(1);
    words.map_while(|word| word.parse().ok()).collect()
}

/// What the program prints for these calls, a line for each.
pub fn printed(calls: &[Call]) -> Vec<String> {
    let input: String = calls.iter().map(|call| call.line() + "\n").collect();
    let text = output_of(Command::new(built("records")).stdin(pipe_of(input.as_bytes())));
    let lines: Vec<String> = text.lines().map(str::to_string).collect();
    assert_eq!(lines.len(), calls.len(), "lines for as many calls; the last: {:?}", lines.last());
    lines
}

/// Makes these calls and compares each line with the checking program. Returns what each came to.
pub fn compare_calls(calls: &[Call]) -> Vec<Answer> {
    calls.iter().zip(printed(calls)).map(|(call, found)| call.compare(&found)).collect()
}
