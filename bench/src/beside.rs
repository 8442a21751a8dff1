//! The library beside another build of it: the same calls by both in turn, on families of plans and on catalogues. Each is linked twice. What
//! one copy takes more than the other comes from its place in memory and from the machine alone. A build before version 0.4.0 has no masks and no
//! signs: it is told by what a catalogue takes, and handed the same plans without them.

use crate::choice::word_pairs;
use crate::families::{full_factorials, Family};
use crate::mean;
use plan_tests::random::Random;
use plan_tests::samples::{table, Sample};
use planner::PLAN_SAME;
use std::hint::black_box;
use std::mem::transmute;
use std::time::Instant;

/// Passes over the calls of a row, the copies in turn in each: a call counts at its fastest.
const PASSES: usize = 60;

/// The least passes for a catalogue: more if they fit into half a second each.
const CATALOGUE_PASSES: usize = 40;
const CATALOGUE_TIME: f64 = 5e5;

/// N, G and R of the catalogues that are measured.
const CATALOGUES: [(usize, usize, usize); 7] = [(9, 4, 3), (10, 5, 3), (12, 6, 3), (14, 8, 3), (16, 10, 3), (14, 7, 4), (16, 9, 4)];

/// The most entries of these.
const MOST_ENTRIES: usize = 1 << 15;

/// What a call answers: its first byte is the refusal's number, 0 if accepted, in every version.
#[repr(C)]
pub struct Answer {
    number: u8,
    count: usize,
}

/// A build of the library, by the names of its functions.
macro_rules! build {
    ($name:ident, $compare:literal, $choose:literal, $columns:literal, $words:literal, $smallest:literal, $catalogue:literal) => {
        mod $name {
            use super::Answer;
            extern "C" {
                #[link_name = $compare]
                pub fn compare(n: usize, g: usize, a: *const u8, len: usize, b: *const u8, also: usize, w: *mut u8, names: usize) -> u32;
                #[link_name = $choose]
                pub fn choose(n: usize, g: usize, a: *const u16, len: usize, b: *const u16, also: usize) -> u8;
                #[link_name = $columns]
                pub fn columns(n: usize, g: usize, a: *const u16, len: usize, columns: *mut u8, places: usize) -> u8;
                #[link_name = $words]
                pub fn words(n: usize, g: usize, a: *const u16, len: usize, signs: u16, columns: *mut u8, places: usize) -> u8;
                #[link_name = $smallest]
                pub fn smallest(
                    n: usize,
                    g: usize,
                    a: *const u8,
                    len: usize,
                    list: *const u8,
                    also: usize,
                    form: *mut u8,
                    places: usize,
                    w: *mut u8,
                    names: usize,
                ) -> Answer;
                #[link_name = $catalogue]
                pub fn catalogue(n: usize, g: usize, r: usize, list: *mut u8, len: usize) -> Answer;
            }
            pub const BUILD: super::Build = super::Build { compare, choose, columns, words, smallest, catalogue };
        }
    };
}

build!(
    ours,
    "ours_plan_compare_columns",
    "ours_plan_less_aberration",
    "ours_plan_columns_of_runs",
    "ours_plan_columns_of_words",
    "ours_plan_smallest_of_columns",
    "ours_plan_catalogue"
);
build!(
    ours_again,
    "ours_again_plan_compare_columns",
    "ours_again_plan_less_aberration",
    "ours_again_plan_columns_of_runs",
    "ours_again_plan_columns_of_words",
    "ours_again_plan_smallest_of_columns",
    "ours_again_plan_catalogue"
);
build!(
    other,
    "other_plan_compare_columns",
    "other_plan_less_aberration",
    "other_plan_columns_of_runs",
    "other_plan_columns_of_words",
    "other_plan_smallest_of_columns",
    "other_plan_catalogue"
);
build!(
    other_again,
    "other_again_plan_compare_columns",
    "other_again_plan_less_aberration",
    "other_again_plan_columns_of_runs",
    "other_again_plan_columns_of_words",
    "other_again_plan_smallest_of_columns",
    "other_again_plan_catalogue"
);

struct Build {
    compare: unsafe extern "C" fn(usize, usize, *const u8, usize, *const u8, usize, *mut u8, usize) -> u32,
    choose: unsafe extern "C" fn(usize, usize, *const u16, usize, *const u16, usize) -> u8,
    columns: unsafe extern "C" fn(usize, usize, *const u16, usize, *mut u8, usize) -> u8,
    words: unsafe extern "C" fn(usize, usize, *const u16, usize, u16, *mut u8, usize) -> u8,
    smallest: unsafe extern "C" fn(usize, usize, *const u8, usize, *const u8, usize, *mut u8, usize, *mut u8, usize) -> Answer,
    catalogue: unsafe extern "C" fn(usize, usize, usize, *mut u8, usize) -> Answer,
}

const ALL: [Build; 4] = [ours::BUILD, other::BUILD, ours_again::BUILD, other_again::BUILD];

/// The function on words of a build without signs.
type Unsigned = unsafe extern "C" fn(usize, usize, *const u16, usize, *mut u8, usize) -> u8;

/// The most bytes of a plan.
const PLAN: usize = 18;

impl Build {
    /// How many bytes of a mask a plan has: the catalogue of one factor, whose only entry is one column, needs so many places more than that.
    fn mask_bytes(&self) -> usize {
        let needed = (1..=3).find(|&places| {
            // SAFETY: the list is valid for the count given with it, and the call does not keep it.
            unsafe { (self.catalogue)(1, 0, 3, [0; 3].as_mut_ptr(), places).number == 0 }
        });
        needed.expect("one column, and a mask or none") - 1
    }

    /// Plans in bytes, with mask 0.
    fn same(&self, n: usize, g: usize, mask: usize, a: &[u8], b: &[u8]) -> bool {
        let (a, b) = (&a[..n + mask], &b[..n + mask]);
        let mut names = [0; 16];
        // SAFETY: the lists are valid for the counts given with them, the lent one overlaps no other, and the call keeps none.
        unsafe { (self.compare)(n, g, a.as_ptr(), a.len(), b.as_ptr(), b.len(), names.as_mut_ptr(), names.len()) == PLAN_SAME }
    }

    fn choice(&self, n: usize, g: usize, a: &[u16], b: &[u16]) -> u8 {
        // SAFETY: as above.
        unsafe { (self.choose)(n, g, a.as_ptr(), a.len(), b.as_ptr(), b.len()) }
    }

    fn columns(&self, n: usize, g: usize, runs: &[u16]) -> [u8; PLAN] {
        let mut plan = [0; PLAN];
        // SAFETY: as above.
        let number = unsafe { (self.columns)(n, g, runs.as_ptr(), runs.len(), plan.as_mut_ptr(), plan.len()) };
        assert_eq!(number, 0, "the table is accepted");
        plan
    }

    /// With plus signs, where the build takes signs.
    fn words(&self, n: usize, g: usize, mask: usize, words: &[u16]) -> [u8; PLAN] {
        let mut plan = [0; PLAN];
        let (list, count, places) = (words.as_ptr(), words.len(), plan.len());
        // SAFETY: as above. A build without masks has this function without signs.
        let number = unsafe {
            match mask {
                0 => transmute::<_, Unsigned>(self.words)(n, g, list, count, plan.as_mut_ptr(), places),
                _ => (self.words)(n, g, list, count, 0, plan.as_mut_ptr(), places),
            }
        };
        assert_eq!(number, 0, "the words are accepted");
        plan
    }

    fn smallest(&self, n: usize, g: usize, mask: usize, a: &[u8]) -> [u8; PLAN] {
        let a = &a[..n + mask];
        let (mut form, mut names, list) = ([0; PLAN], [0; 16], []);
        let (places, room) = (form.len(), names.len());
        // SAFETY: as above.
        let answer =
            unsafe { (self.smallest)(n, g, a.as_ptr(), a.len(), list.as_ptr(), 0, form.as_mut_ptr(), places, names.as_mut_ptr(), room) };
        assert_eq!(answer.number, 0, "the plan is accepted");
        form
    }

    fn catalogue(&self, (n, g, r): (usize, usize, usize), list: &mut [u8]) -> usize {
        // SAFETY: as above.
        let answer = unsafe { (self.catalogue)(n, g, r, list.as_mut_ptr(), list.len()) };
        assert_eq!(answer.number, 0, "the size is accepted and has room");
        answer.count
    }
}

/// Microseconds a call, each at its fastest, by each copy. They begin in turn. A call is told how many bytes of a mask the copy's plans have.
fn measure(passes: usize, calls: usize, mut run: impl FnMut(&Build, usize, usize)) -> [f64; ALL.len()] {
    let masks = ALL.map(|build| build.mask_bytes());
    let mut fastest = ALL.map(|_| vec![f64::INFINITY; calls]);
    for turn in 0..ALL.len() * passes {
        let which = (turn + turn / ALL.len()) % ALL.len();
        for (call, fastest) in fastest[which].iter_mut().enumerate() {
            let start = Instant::now();
            run(&ALL[which], masks[which], call);
            *fastest = fastest.min(start.elapsed().as_secs_f64() * 1e6);
        }
    }
    fastest.map(|times| mean(&times))
}

/// How many times the faster one's time the slower one takes.
fn spread(one: f64, again: f64) -> f64 {
    one.max(again) / one.min(again)
}

fn print_row(call: &str, of: &str, number: usize, [ours, other, ours_again, other_again]: [f64; ALL.len()]) {
    println!(
        "| {call} | {of} | {number} | {:.2} | {:.2} | {:.3} | {:.3} | {:.3} |",
        (ours + ours_again) / 2.0,
        (other + other_again) / 2.0,
        (ours + ours_again) / (other + other_again),
        spread(ours, ours_again),
        spread(other, other_again),
    );
}

/// What a row of a family is of.
fn title(family: &Family) -> String {
    format!("{}, N {}, M {}", family.kind, family.n, family.m)
}

/// The comparison of the pairs.
fn print_comparison(family: &Family) {
    let Family { n, m, same, pairs, .. } = family;
    let (g, of) = (n - m, title(family));
    assert!(ALL.iter().all(|build| pairs.iter().all(|(a, b)| build.same(*n, g, build.mask_bytes(), a, b) == *same)), "{of}");
    let times = measure(PASSES, pairs.len(), |build, mask, i| {
        black_box(build.same(*n, g, mask, black_box(&pairs[i].0), black_box(&pairs[i].1)));
    });
    print_row("comparison", &of, pairs.len(), times);
}

/// The choice between the pairs by words.
fn print_choice(family: &Family) {
    let (n, g, of, words) = (family.n, family.n - family.m, title(family), word_pairs(family));
    for (a, b) in &words {
        let [chosen, others @ ..] = ALL.map(|build| build.choice(n, g, a, b));
        assert!(chosen != 0 && others == [chosen; ALL.len() - 1], "{of}: {chosen} and {others:?}");
    }
    let times = measure(PASSES, words.len(), |build, _, i| {
        black_box(build.choice(n, g, black_box(&words[i].0), black_box(&words[i].1)));
    });
    print_row("choice", &of, words.len(), times);
}

/// The columns of the second plans, by words.
fn print_words(family: &Family) {
    let (n, g, of, words) = (family.n, family.n - family.m, title(family), word_pairs(family));
    for (_, list) in &words {
        let [plan, others @ ..] = ALL.map(|build| build.words(n, g, build.mask_bytes(), list));
        assert!(others == [plan; ALL.len() - 1], "{of}: {plan:?} and {others:?}");
    }
    let times = measure(PASSES, words.len(), |build, mask, i| {
        black_box(build.words(n, g, mask, black_box(&words[i].1)));
    });
    print_row("columns of words", &of, words.len(), times);
}

/// The run tables of the second plans, in any order and with some levels switched.
fn tables(family: &Family) -> Vec<Vec<u16>> {
    let mut random = Random::new(0x7ab1);
    let mut runs = |plan: &[u8]| {
        let columns = plan[..family.n].iter().map(|&column| u32::from(column)).collect();
        table(&mut random, &Sample { n: family.n, m: family.m, columns }).iter().map(|&run| run as u16).collect()
    };
    family.pairs.iter().map(|(_, second)| runs(second)).collect()
}

/// The columns of these tables.
fn print_columns(family: &Family) {
    let (n, g, of, tables) = (family.n, family.n - family.m, title(family), tables(family));
    for runs in &tables {
        let [columns, others @ ..] = ALL.map(|build| build.columns(n, g, runs)[..n].to_vec());
        assert!(others.iter().all(|other| *other == columns), "{of}: {columns:?} and {others:?}");
    }
    let times = measure(PASSES, tables.len(), |build, _, i| {
        black_box(build.columns(n, g, black_box(&tables[i])));
    });
    print_row("columns of runs", &of, tables.len(), times);
}

/// The smallest forms of the second plans.
fn print_smallest(family: &Family) {
    let Family { n, m, pairs, .. } = family;
    let times = measure(PASSES, pairs.len(), |build, mask, i| {
        black_box(build.smallest(*n, n - m, mask, black_box(&pairs[i].1)));
    });
    print_row("smallest form", &title(family), pairs.len(), times);
}

fn print_catalogue(size: (usize, usize, usize), list: &mut [u8]) {
    let count = ALL[0].catalogue(size, list);
    let mut run = |build: &Build, _, _| assert_eq!(black_box(build.catalogue(size, list)), count);
    let passes = (CATALOGUE_TIME / measure(1, 1, &mut run)[0]) as usize;
    print_row("catalogue", &format!("{} {} {}", size.0, size.1, size.2), count, measure(passes.max(CATALOGUE_PASSES), 1, run));
}

pub fn print(families: &[Family]) {
    println!("| call | of | number | library | other build | library / other | library's copies | other's copies |");
    println!("|---|---|---|---|---|---|---|---|");
    for family in families {
        print_comparison(family);
        print_choice(family);
        print_words(family);
        print_columns(family);
        print_smallest(family);
    }
    full_factorials().iter().for_each(print_columns);
    let mut list = vec![0; PLAN * MOST_ENTRIES];
    CATALOGUES.into_iter().for_each(|size| print_catalogue(size, &mut list));
}
