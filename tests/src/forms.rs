//! Calls for smallest forms with guarded lists, held against the checking program.

use crate::calls::{bytes, guarded, shorts, MARGIN};
use crate::check::columns::last_letters;
use crate::check::plan::{columns_and_mask, plan_bytes, stride, Form, Given};
use crate::check::refusals::{accepted, lowest, of_plans};
use crate::check::renamings::is_witness;
use crate::check::runs::{runs_of_columns, switched_runs};
use crate::check::smallest::smallest;
use crate::guarded::{plan_smallest_of_columns, plan_smallest_of_plans, plan_smallest_of_runs};
use planner::FormAnswer;

/// A plan in bytes or by a run table, and the list of plans in bytes, one after another, in which its smallest form is looked for.
#[derive(Clone, Debug)]
pub struct Sought {
    pub n: usize,
    pub g: usize,
    pub form: Form,
    pub plan: Vec<u32>,
    pub among: Vec<u32>,
}

impl Sought {
    /// The plan as a call on one plan takes it.
    fn given(&self) -> Given {
        Given { n: self.n, g: self.g, form: self.form, list: self.plan.clone(), signs: 0 }
    }

    /// The runs of a plan that is in order, and whether it is given by columns with mask 0.
    fn runs(&self) -> (Vec<u32>, bool) {
        if self.form == Form::Runs {
            return (self.plan.clone(), false);
        }
        let (columns, mask) = columns_and_mask(self.n, &self.plan);
        (switched_runs(self.n - self.g, columns, mask), mask == 0)
    }
}

/// Two lent lists, guarded on both sides, before and after a call.
struct Lent {
    before: (Vec<u8>, Vec<u8>),
    after: (Vec<u8>, Vec<u8>),
}

impl Lent {
    /// Makes a call with lists of these many places.
    fn call<A>(places: (usize, usize), call: impl FnOnce(&mut [u8], &mut [u8]) -> A) -> (A, Lent) {
        let before = (bytes(&guarded(places.0)), bytes(&guarded(places.1)));
        let mut after = before.clone();
        let answer = call(&mut after.0[MARGIN..MARGIN + places.0], &mut after.1[MARGIN..MARGIN + places.1]);
        (answer, Lent { before, after })
    }

    /// Whether all but so many first places of each list are as they were.
    fn rest_is_untouched(&self, written: (usize, usize)) -> bool {
        let same = |before: &[u8], after: &[u8], count: usize| {
            let end = MARGIN + count;
            before[..MARGIN] == after[..MARGIN] && before[end..] == after[end..]
        };
        if written == (0, 0) {
            return self.before == self.after;
        }
        same(&self.before.0, &self.after.0, written.0) && same(&self.before.1, &self.after.1, written.1)
    }

    /// What so many first places of each list hold.
    fn written(&self, counts: (usize, usize)) -> (Vec<u32>, Vec<u32>) {
        let first = |list: &[u8], count: usize| list[MARGIN..MARGIN + count].iter().map(|&x| x.into()).collect();
        (first(&self.after.0, counts.0), first(&self.after.1, counts.1))
    }
}

/// The call on the plan's form.
fn call(sought: &Sought, places: (usize, usize)) -> (FormAnswer, Lent) {
    let Sought { n, g, .. } = *sought;
    let among = bytes(&sought.among);
    let (answer, lent) = Lent::call(places, |form, names| match sought.form {
        Form::Columns => plan_smallest_of_columns(n, g, &bytes(&sought.plan), &among, form, names),
        Form::Runs => plan_smallest_of_runs(n, g, &shorts(&sought.plan), &among, form, names),
        Form::Words => panic!("no call takes words"),
    });
    assert_eq!(among, bytes(&sought.among), "a call changed what it reads");
    (answer, lent)
}

/// The first place of a plan with these bytes in a list, from 1; 0 if it is absent.
fn first_place(n: usize, among: &[u32], form: &[u32]) -> usize {
    among.chunks(stride(n)).position(|plan| plan == form).map_or(0, |k| k + 1)
}

/// Compares one call with the columns of the form that is expected if it is accepted: the answer, its place, the columns and the mask 0, the
/// witness run by run, and the places that it may not touch. Returns the answer.
pub fn compare_sought(sought: &Sought, form: &[u32], places: (usize, usize)) -> FormAnswer {
    let Sought { n, g, .. } = *sought;
    let plan = accepted(&sought.given()).err().unwrap_or(0);
    let short = if places.0 < n.saturating_add(2) || places.1 < n { 8 } else { 0 };
    let expected = lowest(lowest(plan, of_plans(n, g, &sought.among)), short);
    let (answer, lent) = call(sought, places);
    assert_eq!(answer.number, expected, "the smallest form of {sought:?} with {places:?} places");
    if expected != 0 {
        assert_eq!((answer.mask, answer.place), (0, 0), "refused: {sought:?}");
        assert!(lent.rest_is_untouched((0, 0)), "a refused call touched a list: {sought:?}");
        return answer;
    }
    let (smallest, names) = lent.written((stride(n), n));
    let (first, unswitched) = sought.runs();
    assert!(!unswitched || answer.mask == 0, "a switch from mask 0: {answer:?} for {sought:?}");
    assert_eq!(smallest, plan_bytes(form, 0), "the smallest form of {sought:?}");
    assert_eq!(answer.place, first_place(n, &sought.among, &smallest), "the place of {sought:?}");
    assert!(
        is_witness(n, &first, &runs_of_columns(n - g, form), &names, answer.mask.into()),
        "no witness: {names:?} and {answer:?} for {sought:?}"
    );
    assert!(lent.rest_is_untouched((stride(n), n)), "places past the result: {sought:?}");
    answer
}

/// The smallest form of the plan by the checking program; nothing if the list is no plan.
pub fn form_of(sought: &Sought) -> Vec<u32> {
    accepted(&sought.given()).map_or(Vec::new(), |plan| smallest(plan.n - plan.g, &plan.standard()))
}

/// Compares one call on a plan in bytes, with an empty list to look in. Returns the answer's number.
pub fn compare_bytes(n: usize, g: usize, bytes: &[u32], places: (usize, usize)) -> u8 {
    let sought = Sought { n, g, form: Form::Columns, plan: bytes.to_vec(), among: Vec::new() };
    compare_sought(&sought, &form_of(&sought), places).number
}

/// Compares the calls on columns whose smallest form this is, with nothing and with everything switched that may be, and an empty list to look
/// in. Returns the answers' number.
pub fn compare_smallest(n: usize, g: usize, columns: &[u32], form: &[u32], places: (usize, usize)) -> u8 {
    let numbers = [0, last_letters(columns)].map(|mask| {
        let sought = Sought { n, g, form: Form::Columns, plan: plan_bytes(columns, mask), among: Vec::new() };
        compare_sought(&sought, form, places).number
    });
    assert_eq!(numbers[0], numbers[1], "with nothing and with everything switched: {columns:?}");
    numbers[0]
}

/// Compares one call on several plans in bytes, one after another, with the checking program: the answer, each form with mask 0, each witness run
/// by run with its two bytes of switches, and the places that it may not touch. Returns the answer.
pub fn compare_plans(n: usize, g: usize, plans: &[u32], places: (usize, usize)) -> u8 {
    let short = if places.0 < plans.len() || places.1 < plans.len() { 8 } else { 0 };
    let expected = lowest(of_plans(n, g, plans), short);
    let given = bytes(plans);
    let (answer, lent) = Lent::call(places, |forms, names| plan_smallest_of_plans(n, g, &given, forms, names));
    assert_eq!(answer, expected, "the smallest forms of {plans:?}, {n} {g}, with {places:?} places");
    assert_eq!(given, bytes(plans), "a call changed what it reads");
    let written = if expected == 0 { plans.len() } else { 0 };
    assert!(lent.rest_is_untouched((written, written)), "places past the result: {plans:?}, {n} {g}");
    if expected != 0 {
        return answer;
    }
    let (forms, witnesses) = lent.written((written, written));
    for (k, plan) in plans.chunks(stride(n)).enumerate() {
        let places = k * stride(n)..(k + 1) * stride(n);
        let ((columns, mask), (names, switches)) = (columns_and_mask(n, plan), columns_and_mask(n, &witnesses[places.clone()]));
        let form = smallest(n - g, columns);
        assert_eq!(forms[places], plan_bytes(&form, 0), "the smallest form of plan {k} of {plans:?}");
        let (first, second) = (switched_runs(n - g, columns, mask), runs_of_columns(n - g, &form));
        assert!(is_witness(n, &first, &second, names, switches), "no witness: {names:?}, {switches:#x} from plan {k} of {plans:?}");
        assert!(mask != 0 || switches == 0, "a switch {switches:#x} from mask 0: plan {k} of {plans:?}");
    }
    answer
}
