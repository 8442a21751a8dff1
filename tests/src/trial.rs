//! Calls of every exported function, on inputs good and damaged, as many as wanted, each held against the checking program.

use crate::book_samples::{drawn, some_of};
use crate::books;
use crate::calls::bytes;
use crate::catalogues::{compare_catalogue, compare_refused, every_smallest_form, refusal, with_resolution, Entries};
use crate::check::book::book;
use crate::check::plan::{plan_bytes, stride, Form, Given};
use crate::check::reading::judge;
use crate::check::refusals::{accepted, lowest};
use crate::check::renamings::is_witness;
use crate::check::smallest::smallest;
use crate::compare::{around, compare, compare_ranking, Lending, Tally};
use crate::compare_pairs::{compare_any, Counts};
use crate::forms::{compare_plans, compare_sought, form_of, Sought};
use crate::hard::{alike_pairs, odd_weight, symmetric, Columns};
use crate::known::{disguised, in_other_basics};
use crate::loads::{compare_load, every_size};
use crate::pairs::{call_check, Pair, Verdict};
use crate::random::Random;
use crate::reading::compare_judged;
use crate::records::{keep, made, slowest};
use crate::samples::{any_mask, columns, damaged, given, sample, short_sample, Sample};
use std::collections::BTreeMap;

const FORMS: [Form; 3] = [Form::Words, Form::Columns, Form::Runs];

/// The most factors of the catalogues that are compared.
const CATALOGUE_FACTORS: usize = 7;

/// The most bytes in a part of a list of plans: the checking program takes its time for each plan.
const FEW: usize = 40;

/// The most places that are lent for a book, whatever its damaged header counts.
const MOST_PLACES: usize = 400;

/// Numbers for sizes, many of which are refused.
const SIZES: [usize; 14] = [0, 1, 2, 3, 5, 8, 15, 16, 17, 18, 255, 256, 1 << 32, usize::MAX];

/// A trial: its generator, what it has come to, and what was worked out once for many calls.
pub struct Trial {
    random: Random,
    pub tally: Tally,
    pub counts: Counts,
    /// how often the reader of books gave each number
    pub read: [u64; 13],
    /// how often a load gave each number
    pub loaded: [u64; 9],
    /// plans that are hard to compare
    hard: Vec<Columns>,
    /// every smallest form, by N and M
    forms: BTreeMap<(usize, usize), Entries>,
    /// whether to stay near the slowest: then the inputs depend on the time that calls take
    pub seeking: bool,
    /// the plans on which these functions took the longest so far; at first one that is hard
    slow: [(&'static str, Sample); 2],
}

impl Trial {
    /// A trial that draws its inputs from a seed, which is not 0. The records of the thread's calls are kept from now on.
    pub fn new(seed: u64) -> Trial {
        keep();
        let symmetric = symmetric().into_iter().map(|(_, plan)| plan);
        let hard: Vec<Columns> = symmetric.chain(alike_pairs().into_iter().flat_map(|(first, second)| [first, second])).collect();
        let slow = ["plan_smallest_of_columns", "plan_compare_columns"].map(|name| (name, sample_of(hard[0].clone())));
        Trial {
            random: Random::new(seed),
            tally: Tally::new(),
            counts: Counts::default(),
            read: [0; 13],
            loaded: [0; 9],
            hard,
            forms: BTreeMap::new(),
            seeking: false,
            slow,
        }
    }

    /// Takes turns until this many calls are made.
    pub fn run(&mut self, calls: u64) {
        while made() < calls {
            let plan = self.plan();
            let before = self.slow.each_ref().map(|(name, _)| slowest(name));
            self.forms_and_measures(&plan);
            self.rankings(&plan);
            self.comparisons(&plan);
            self.witnesses(&plan);
            self.smallest_forms(&plan);
            self.loads();
            self.books(&plan);
            self.catalogues();
            self.readings(&plan);
            for ((name, slow), before) in self.slow.iter_mut().zip(before) {
                if self.seeking && slowest(name) > before {
                    *slow = plan.clone();
                }
            }
        }
    }

    /// A plan: any, one that is hard to compare, one with words of even length only, or one near a hard one or near the slowest so far; one
    /// in eight with a word that is too short.
    fn plan(&mut self) -> Sample {
        let random = &mut self.random;
        let plan = match random.below(5) {
            0 => sample_of(self.hard[random.below(self.hard.len())].clone()),
            1 => sample_of(odd_weight(random, 16, 7)),
            2 if self.seeking => {
                let (_, slow) = &self.slow[random.below(2)];
                near(random, slow)
            }
            2 => {
                let hard = sample_of(self.hard[random.below(self.hard.len())].clone());
                near(random, &hard)
            }
            _ => sample(random),
        };
        if random.below(8) > 0 {
            return plan;
        }
        short_sample(random, &plan).unwrap_or(plan)
    }

    /// The plan in a form, as it is or damaged once or twice, with one bit cleared in every number, with other sizes, or with another count of
    /// numbers, also one that has the right last digits.
    fn list(&mut self, plan: &Sample, form: Form) -> Given {
        let random = &mut self.random;
        let good = given(random, plan, form);
        match random.below(8) {
            0 => damaged(random, &good),
            1 => {
                let once = damaged(random, &good);
                damaged(random, &once)
            }
            2 if !good.list.is_empty() => {
                let right = good.list.len();
                let counts = [around(right), vec![right + (1 << 8), right + (1 << 16)]].concat();
                let count = counts[random.below(counts.len())];
                Given { list: good.list.iter().copied().cycle().take(count).collect(), ..good }
            }
            3 => {
                let kept = !(1 << random.below(plan.m));
                Given { list: good.list.iter().map(|number| number & kept).collect(), ..good }
            }
            4 => {
                let n = random.below(19);
                Given { n, g: random.below(n + 2), ..good }
            }
            _ => good,
        }
    }

    /// The plan in bytes, damaged or not, as part of a list of few plans.
    fn plans(&mut self, plan: &Sample) -> Given {
        let mut part = self.list(plan, Form::Columns);
        part.list.truncate(FEW);
        part
    }

    /// The same, for a book: where it has the bytes of a plan, its mask is mostly 0.
    fn plans_for_book(&mut self, plan: &Sample) -> Given {
        let mut part = self.plans(plan);
        if part.list.len() == stride(plan.n) && self.random.below(4) > 0 {
            part.list[plan.n..].fill(0);
        }
        part
    }

    fn forms_and_measures(&mut self, plan: &Sample) {
        for form in FORMS {
            let list = self.list(plan, form);
            compare(&list, Lending::Around, &mut self.tally);
        }
    }

    /// The plan and another of its size, or itself, by words.
    fn rankings(&mut self, plan: &Sample) {
        for _ in 0..4 {
            let other = match self.random.below(4) {
                0 => plan.clone(),
                _ => Sample { columns: columns(&mut self.random, plan.n, plan.m), ..*plan },
            };
            let (first, second) = (self.list(plan, Form::Words), self.list(&other, Form::Words));
            compare_ranking(first.n, first.g, &first.list, &second.list);
            compare_ranking(first.n, first.g, &second.list, &first.list);
        }
    }

    /// The same plan in other names and basics, or one of its size, by columns and by runs, for witness lists of every length around N.
    fn comparisons(&mut self, plan: &Sample) {
        let other = match self.random.below(3) {
            0 => columns(&mut self.random, plan.n, plan.m),
            _ => self.scrambled(plan),
        };
        let other = Sample { columns: other, ..*plan };
        for form in [Form::Columns, Form::Runs] {
            let (first, second) = (self.list(plan, form), self.list(&other, form));
            let pair = Pair { n: first.n, g: first.g, form, first: first.list, second: second.list };
            around(plan.n).into_iter().for_each(|places| compare_any(&pair, places, &mut self.counts));
        }
    }

    /// Tables that names and a mask turn into each other: the true witness, and others near it.
    fn witnesses(&mut self, plan: &Sample) {
        let first = self.list(plan, Form::Runs);
        let table = given(&mut self.random, plan, Form::Runs).list;
        let (names, mask, second) = disguised(&mut self.random, plan.n, &table);
        let pair = Pair { n: first.n, g: first.g, form: Form::Runs, first: first.list, second };
        for count in around(plan.n) {
            let mut claimed: Vec<u32> = names.iter().copied().cycle().take(count).collect();
            if count > 0 && self.random.below(4) == 0 {
                claimed[self.random.below(count)] = self.random.below(256) as u32;
            }
            let claimed_mask = if self.random.below(4) == 0 { self.random.below(1 << 16) as u32 } else { mask };
            check_any(&pair, &claimed, claimed_mask);
        }
    }

    /// The plan in other names and basics, by columns and by runs, and several plans in one call. It is looked for in a list that has it.
    fn smallest_forms(&mut self, plan: &Sample) {
        let other = Sample { columns: self.scrambled(plan), ..*plan };
        for form in [Form::Columns, Form::Runs] {
            let Given { n, g, list, .. } = self.list(&other, form);
            let mut sought = Sought { n, g, form, plan: list, among: Vec::new() };
            let smallest = form_of(&sought);
            if self.random.below(2) == 0 && !smallest.is_empty() {
                let masks = [any_mask(&mut self.random, &smallest), 0];
                sought.among = [self.plans(plan).list, masks.map(|mask| plan_bytes(&smallest, mask)).concat()].concat();
            }
            for places in around(stride(plan.n)) {
                compare_sought(&sought, &smallest, (places, self.near(plan.n)));
            }
        }
        let plans = [self.plans(plan), self.plans(&other)];
        let both = [plans[0].list.clone(), plans[1].list.clone()].concat();
        for places in around(both.len()) {
            compare_plans(plans[0].n, plans[0].g, &both, (places, self.near(both.len())));
        }
    }

    /// The book of the plan and of another of its size, for any R.
    fn books(&mut self, plan: &Sample) {
        let other = Sample { columns: columns(&mut self.random, plan.n, plan.m), ..*plan };
        let (first, second) = (self.plans_for_book(plan), self.plans_for_book(&other));
        let plans = bytes(&[first.list, second.list].concat());
        let r = self.random.between(2, 5);
        for places in around(book(plan.n, plan.n - plan.m, r, &[plan.columns.clone(), other.columns]).len()) {
            books::compare_any(first.n, first.g, r, &plans, places);
        }
    }

    /// Loads of any seeds: of a size that has one, for lists around the one that is enough, of a size near those that have one, and of any.
    fn loads(&mut self) {
        let sizes = every_size();
        let (n, g) = sizes[self.random.below(sizes.len())];
        around(stride(n)).into_iter().for_each(|places| self.load(n, g, places));
        let near = self.random.below(19);
        for (n, g) in [(near, self.random.below(near + 2)), (self.size(), self.size())] {
            let places = self.near(stride(n.min(16)));
            self.load(n, g, places);
        }
    }

    fn load(&mut self, n: usize, g: usize, places: usize) {
        let seed = self.random.draw() as u32;
        self.loaded[usize::from(compare_load(n, g, seed, places))] += 1;
    }

    /// A number for a size, in or out of its bounds.
    fn size(&mut self) -> usize {
        SIZES[self.random.below(SIZES.len())]
    }

    /// A length around the one that is enough.
    fn near(&mut self, enough: usize) -> usize {
        let lengths = around(enough);
        lengths[self.random.below(lengths.len())]
    }

    /// N, M, R and the entries of a catalogue of few factors.
    fn catalogue(&mut self) -> (usize, usize, usize, Entries) {
        let n = self.random.between(1, CATALOGUE_FACTORS);
        let (m, r) = (self.random.between(1, n), self.random.between(3, n + 3));
        let forms = self.forms.entry((n, m)).or_insert_with(|| every_smallest_form(n, m));
        (n, m, r, with_resolution(forms, r))
    }

    /// A catalogue of few factors for lists around one of its entries and around all, and a size that is refused.
    fn catalogues(&mut self) {
        let (n, m, r, entries) = self.catalogue();
        let room = self.random.below(entries.len() + 1);
        for places in around(room * stride(n)).into_iter().chain(around(entries.len() * stride(n))) {
            compare_catalogue(n, n - m, r, &entries, places);
        }
        let [n, g, r] = [(); 3].map(|_| self.size());
        if refusal(n, g, r) != 0 {
            around(n.min(16)).into_iter().for_each(|places| compare_refused(n, g, r, places));
        }
    }

    /// Books, good and damaged, for lists around what their headers count: of some entries of a catalogue of few factors, and of the plan in
    /// smallest form.
    fn readings(&mut self, plan: &Sample) {
        let (n, m, r, entries) = self.catalogue();
        let few = some_of(&mut self.random, &entries, 4);
        let form = match accepted(&Given::columns(plan.n, plan.n - plan.m, &plan.columns, 0)) {
            Ok(_) => smallest(plan.m, &plan.columns),
            Err(_) => plan.columns.clone(),
        };
        for book in [drawn(&mut self.random, n, m, r, &few), drawn(&mut self.random, plan.n, plan.m, 3, &[form])] {
            let judged = judge(&book);
            for places in around(judged.places().min(MOST_PLACES)) {
                self.read[usize::from(compare_judged(&book, &judged, places))] += 1;
            }
        }
    }

    /// The plan's columns in other basic factors, in another order.
    fn scrambled(&mut self, plan: &Sample) -> Vec<u32> {
        let mut columns = in_other_basics(&mut self.random, plan.m, &plan.columns);
        self.random.shuffle(&mut columns);
        columns
    }
}

/// The plan with one column changed; itself if that would be no plan without short words.
fn near(random: &mut Random, plan: &Sample) -> Sample {
    let mut columns = plan.columns.clone();
    columns[random.below(plan.n)] = random.below(1 << plan.m) as u32;
    let changed = accepted(&Given::columns(plan.n, plan.n - plan.m, &columns, 0)).is_ok();
    Sample { columns: if changed { columns } else { plan.columns.clone() }, ..*plan }
}

fn sample_of((m, columns): Columns) -> Sample {
    Sample { n: columns.len(), m, columns }
}

/// The check of any names and mask between any two tables, against the checking program.
fn check_any(pair: &Pair, names: &[u32], mask: u32) {
    let number = |list: &[u32]| accepted(&pair.given(list)).err().unwrap_or(0);
    let expected = match lowest(number(&pair.first), number(&pair.second)) {
        0 if is_witness(pair.n, &pair.first, &pair.second, names, mask) => Verdict::Yes,
        0 => Verdict::No,
        number => Verdict::Refused(number),
    };
    assert_eq!(call_check(pair, names, mask), expected, "names {names:?} mask {mask:#x} for {pair:?}");
}
