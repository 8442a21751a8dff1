//! The plan library for a Rust program: a safe function for each exported one of the Rattle crate `planner`, under its name.
//! `include/planner.h` is the manual.
//!
//! A list goes as a pointer and then its count of elements. Each call on one plan answers the number of document 01's refusal, 0 if it
//! accepts; a refused call leaves the lent list untouched, and an accepted one leaves the places past its result untouched.
//!
//! A plan in bytes is its N columns and the two bytes of its switch mask, low byte first: N + 2 places.

/// A comparison's answer for plans that are the same, to which the witness's mask is added.
pub const PLAN_SAME: u32 = 0x1_0000;
/// .. for plans that are different, to which the first length where the patterns differ is added, 0 if they agree.
pub const PLAN_DIFFERENT: u32 = 0x2_0000;
/// What the check of a witness says of a true one.
pub const PLAN_YES: u32 = 0x1_0000;
/// .. and of any other.
pub const PLAN_NO: u32 = 0x2_0000;

mod exported {
    #[link(name = "planner", kind = "static")]
    extern "C" {
        pub fn plan_columns_of_words(
            n: usize,
            g: usize,
            words: *const u16,
            words_count: usize,
            signs: u16,
            plan: *mut u8,
            plan_count: usize,
        ) -> u8;
        pub fn plan_columns_of_runs(n: usize, g: usize, runs: *const u16, runs_count: usize, plan: *mut u8, plan_count: usize) -> u8;
        pub fn plan_words_of_columns(
            n: usize,
            g: usize,
            plan: *const u8,
            plan_count: usize,
            words: *mut u16,
            words_count: usize,
        ) -> super::Signs;
        pub fn plan_runs_of_columns(n: usize, g: usize, plan: *const u8, plan_count: usize, runs: *mut u16, runs_count: usize) -> u8;
        pub fn plan_runs_of_words(
            n: usize,
            g: usize,
            words: *const u16,
            words_count: usize,
            signs: u16,
            runs: *mut u16,
            runs_count: usize,
        ) -> u8;
        pub fn plan_pattern_of_columns(
            n: usize,
            g: usize,
            columns: *const u8,
            columns_count: usize,
            pattern: *mut u16,
            pattern_count: usize,
        ) -> u8;
        pub fn plan_pattern_of_words(
            n: usize,
            g: usize,
            words: *const u16,
            words_count: usize,
            signs: u16,
            pattern: *mut u16,
            pattern_count: usize,
        ) -> u8;
        pub fn plan_pattern_of_runs(n: usize, g: usize, runs: *const u16, runs_count: usize, pattern: *mut u16, pattern_count: usize)
            -> u8;
        pub fn plan_resolution_of_columns(
            n: usize,
            g: usize,
            columns: *const u8,
            columns_count: usize,
            resolution: *mut u8,
            resolution_count: usize,
        ) -> u8;
        pub fn plan_resolution_of_words(
            n: usize,
            g: usize,
            words: *const u16,
            words_count: usize,
            signs: u16,
            resolution: *mut u8,
            resolution_count: usize,
        ) -> u8;
        pub fn plan_resolution_of_runs(
            n: usize,
            g: usize,
            runs: *const u16,
            runs_count: usize,
            resolution: *mut u8,
            resolution_count: usize,
        ) -> u8;
        pub fn plan_distances_of_columns(
            n: usize,
            g: usize,
            columns: *const u8,
            columns_count: usize,
            counts: *mut u16,
            counts_count: usize,
        ) -> u8;
        pub fn plan_distances_of_words(
            n: usize,
            g: usize,
            words: *const u16,
            words_count: usize,
            signs: u16,
            counts: *mut u16,
            counts_count: usize,
        ) -> u8;
        pub fn plan_distances_of_runs(n: usize, g: usize, runs: *const u16, runs_count: usize, counts: *mut u16, counts_count: usize)
            -> u8;
        pub fn plan_aberration_refusal(
            n: usize,
            g: usize,
            first: *const u16,
            first_count: usize,
            second: *const u16,
            second_count: usize,
        ) -> u8;
        pub fn plan_less_aberration(
            n: usize,
            g: usize,
            first: *const u16,
            first_count: usize,
            second: *const u16,
            second_count: usize,
        ) -> u8;
        pub fn plan_compare_columns(
            n: usize,
            g: usize,
            first: *const u8,
            first_count: usize,
            second: *const u8,
            second_count: usize,
            witness: *mut u8,
            witness_count: usize,
        ) -> u32;
        pub fn plan_compare_runs(
            n: usize,
            g: usize,
            first: *const u16,
            first_count: usize,
            second: *const u16,
            second_count: usize,
            witness: *mut u8,
            witness_count: usize,
        ) -> u32;
        pub fn plan_check_witness(
            n: usize,
            g: usize,
            first: *const u16,
            first_count: usize,
            second: *const u16,
            second_count: usize,
            names: *const u8,
            names_count: usize,
            mask: u16,
        ) -> u32;
        pub fn plan_catalogue(n: usize, g: usize, r: usize, columns: *mut u8, columns_count: usize) -> super::Entries;
        pub fn plan_write_book(
            n: usize,
            g: usize,
            r: usize,
            plans: *const u8,
            plans_count: usize,
            book: *mut u8,
            book_count: usize,
        ) -> super::Bytes;
        pub fn plan_read_book(book: *const u8, book_count: usize, columns: *mut u8, columns_count: usize) -> super::Book;
        pub fn plan_smallest_of_columns(
            n: usize,
            g: usize,
            columns: *const u8,
            columns_count: usize,
            list: *const u8,
            list_count: usize,
            smallest: *mut u8,
            smallest_count: usize,
            witness: *mut u8,
            witness_count: usize,
        ) -> super::FormAnswer;
        pub fn plan_smallest_of_runs(
            n: usize,
            g: usize,
            runs: *const u16,
            runs_count: usize,
            list: *const u8,
            list_count: usize,
            smallest: *mut u8,
            smallest_count: usize,
            witness: *mut u8,
            witness_count: usize,
        ) -> super::FormAnswer;
        pub fn plan_smallest_of_plans(
            n: usize,
            g: usize,
            plans: *const u8,
            plans_count: usize,
            forms: *mut u8,
            forms_count: usize,
            witnesses: *mut u8,
            witnesses_count: usize,
        ) -> u8;
        pub fn plan_load(n: usize, g: usize, seed: u32, plan: *mut u8, plan_count: usize) -> super::State;
    }
}

/// The plan that the words and their signs generate, in standard columns: N + 2 places.
pub fn plan_columns_of_words(n: usize, g: usize, words: &[u16], signs: u16, plan: &mut [u8]) -> u8 {
    // SAFETY: both lists are valid for the counts given with them, and the call keeps neither.
    unsafe { exported::plan_columns_of_words(n, g, words.as_ptr(), words.len(), signs, plan.as_mut_ptr(), plan.len()) }
}

/// The plan of a run table, in standard columns: N + 2 places.
pub fn plan_columns_of_runs(n: usize, g: usize, runs: &[u16], plan: &mut [u8]) -> u8 {
    // SAFETY: both lists are valid for the counts given with them, and the call keeps neither.
    unsafe { exported::plan_columns_of_runs(n, g, runs.as_ptr(), runs.len(), plan.as_mut_ptr(), plan.len()) }
}

/// What is told of words: a refusal's number, 0 if accepted, and their signs, 0 if refused.
#[repr(C)]
#[derive(Clone, Copy, Debug, PartialEq, Eq)]
pub struct Signs {
    pub number: u8,
    pub signs: u16,
}

/// The reduced words of a plan: G places.
pub fn plan_words_of_columns(n: usize, g: usize, plan: &[u8], words: &mut [u16]) -> Signs {
    // SAFETY: both lists are valid for the counts given with them, and the call keeps neither.
    unsafe { exported::plan_words_of_columns(n, g, plan.as_ptr(), plan.len(), words.as_mut_ptr(), words.len()) }
}

/// The runs of a plan, run j at place j: 2^M places.
pub fn plan_runs_of_columns(n: usize, g: usize, plan: &[u8], runs: &mut [u16]) -> u8 {
    // SAFETY: both lists are valid for the counts given with them, and the call keeps neither.
    unsafe { exported::plan_runs_of_columns(n, g, plan.as_ptr(), plan.len(), runs.as_mut_ptr(), runs.len()) }
}

/// The runs of the plan that the words and their signs generate in standard columns, run j at place j: 2^M places.
pub fn plan_runs_of_words(n: usize, g: usize, words: &[u16], signs: u16, runs: &mut [u16]) -> u8 {
    // SAFETY: both lists are valid for the counts given with them, and the call keeps neither.
    unsafe { exported::plan_runs_of_words(n, g, words.as_ptr(), words.len(), signs, runs.as_mut_ptr(), runs.len()) }
}

/// The pattern, lengths 1 to N: N places.
pub fn plan_pattern_of_columns(n: usize, g: usize, columns: &[u8], pattern: &mut [u16]) -> u8 {
    // SAFETY: both lists are valid for the counts given with them, and the call keeps neither.
    unsafe { exported::plan_pattern_of_columns(n, g, columns.as_ptr(), columns.len(), pattern.as_mut_ptr(), pattern.len()) }
}

/// The pattern, lengths 1 to N: N places.
pub fn plan_pattern_of_words(n: usize, g: usize, words: &[u16], signs: u16, pattern: &mut [u16]) -> u8 {
    // SAFETY: both lists are valid for the counts given with them, and the call keeps neither.
    unsafe { exported::plan_pattern_of_words(n, g, words.as_ptr(), words.len(), signs, pattern.as_mut_ptr(), pattern.len()) }
}

/// The pattern, lengths 1 to N: N places.
pub fn plan_pattern_of_runs(n: usize, g: usize, runs: &[u16], pattern: &mut [u16]) -> u8 {
    // SAFETY: both lists are valid for the counts given with them, and the call keeps neither.
    unsafe { exported::plan_pattern_of_runs(n, g, runs.as_ptr(), runs.len(), pattern.as_mut_ptr(), pattern.len()) }
}

/// The resolution: 1 place.
pub fn plan_resolution_of_columns(n: usize, g: usize, columns: &[u8], resolution: &mut [u8]) -> u8 {
    // SAFETY: both lists are valid for the counts given with them, and the call keeps neither.
    unsafe { exported::plan_resolution_of_columns(n, g, columns.as_ptr(), columns.len(), resolution.as_mut_ptr(), resolution.len()) }
}

/// The resolution: 1 place.
pub fn plan_resolution_of_words(n: usize, g: usize, words: &[u16], signs: u16, resolution: &mut [u8]) -> u8 {
    // SAFETY: both lists are valid for the counts given with them, and the call keeps neither.
    unsafe { exported::plan_resolution_of_words(n, g, words.as_ptr(), words.len(), signs, resolution.as_mut_ptr(), resolution.len()) }
}

/// The resolution: 1 place.
pub fn plan_resolution_of_runs(n: usize, g: usize, runs: &[u16], resolution: &mut [u8]) -> u8 {
    // SAFETY: both lists are valid for the counts given with them, and the call keeps neither.
    unsafe { exported::plan_resolution_of_runs(n, g, runs.as_ptr(), runs.len(), resolution.as_mut_ptr(), resolution.len()) }
}

/// The distance counts from the first run, 0 to N: N + 1 places.
pub fn plan_distances_of_columns(n: usize, g: usize, columns: &[u8], counts: &mut [u16]) -> u8 {
    // SAFETY: both lists are valid for the counts given with them, and the call keeps neither.
    unsafe { exported::plan_distances_of_columns(n, g, columns.as_ptr(), columns.len(), counts.as_mut_ptr(), counts.len()) }
}

/// The distance counts from the first run, 0 to N: N + 1 places.
pub fn plan_distances_of_words(n: usize, g: usize, words: &[u16], signs: u16, counts: &mut [u16]) -> u8 {
    // SAFETY: both lists are valid for the counts given with them, and the call keeps neither.
    unsafe { exported::plan_distances_of_words(n, g, words.as_ptr(), words.len(), signs, counts.as_mut_ptr(), counts.len()) }
}

/// The distance counts from the first run, 0 to N: N + 1 places.
pub fn plan_distances_of_runs(n: usize, g: usize, runs: &[u16], counts: &mut [u16]) -> u8 {
    // SAFETY: both lists are valid for the counts given with them, and the call keeps neither.
    unsafe { exported::plan_distances_of_runs(n, g, runs.as_ptr(), runs.len(), counts.as_mut_ptr(), counts.len()) }
}

/// The number under which `plan_less_aberration` refuses these lists; 0 if it accepts them.
pub fn plan_aberration_refusal(n: usize, g: usize, first: &[u16], second: &[u16]) -> u8 {
    // SAFETY: both lists are valid for the counts given with them, and the call keeps neither.
    unsafe { exported::plan_aberration_refusal(n, g, first.as_ptr(), first.len(), second.as_ptr(), second.len()) }
}

/// 1 if the first list is handed back, 2 if the second, 0 if refused.
pub fn plan_less_aberration(n: usize, g: usize, first: &[u16], second: &[u16]) -> u8 {
    // SAFETY: both lists are valid for the counts given with them, and the call keeps neither.
    unsafe { exported::plan_less_aberration(n, g, first.as_ptr(), first.len(), second.as_ptr(), second.len()) }
}

/// Compares two plans in bytes: `PLAN_SAME` and the witness's mask, and its names in the first N places; `PLAN_DIFFERENT` and a length; or the
/// refusal's number.
pub fn plan_compare_columns(n: usize, g: usize, first: &[u8], second: &[u8], witness: &mut [u8]) -> u32 {
    let (count, places) = (first.len(), witness.len());
    // SAFETY: the lists are valid for the counts given with them, and the call keeps none.
    unsafe { exported::plan_compare_columns(n, g, first.as_ptr(), count, second.as_ptr(), second.len(), witness.as_mut_ptr(), places) }
}

/// Compares two plans given by run tables, as `plan_compare_columns` does.
pub fn plan_compare_runs(n: usize, g: usize, first: &[u16], second: &[u16], witness: &mut [u8]) -> u32 {
    let (count, places) = (first.len(), witness.len());
    // SAFETY: the lists are valid for the counts given with them, and the call keeps none.
    unsafe { exported::plan_compare_runs(n, g, first.as_ptr(), count, second.as_ptr(), second.len(), witness.as_mut_ptr(), places) }
}

/// Checks a claimed witness between two run tables: `PLAN_YES`, `PLAN_NO`, or the refusal's number if a table is refused.
pub fn plan_check_witness(n: usize, g: usize, first: &[u16], second: &[u16], names: &[u8], mask: u16) -> u32 {
    let (count, places) = (first.len(), names.len());
    // SAFETY: the lists are valid for the counts given with them, and the call keeps none.
    unsafe { exported::plan_check_witness(n, g, first.as_ptr(), count, second.as_ptr(), second.len(), names.as_ptr(), places, mask) }
}

/// What is told of a smallest form: a refusal's number, 0 if accepted, the mask of the witness to it, and its first place in the list, from 1, 0 if
/// absent.
#[repr(C)]
#[derive(Clone, Copy, Debug, PartialEq, Eq)]
pub struct FormAnswer {
    pub number: u8,
    pub mask: u16,
    pub place: usize,
}

/// The smallest form of a plan, in bytes, N + 2 places, and a witness to it, for each factor of the given plan the factor of the smallest form
/// that it becomes, N places. The list that it is looked for in holds the bytes of plans.
pub fn plan_smallest_of_columns(n: usize, g: usize, columns: &[u8], list: &[u8], smallest: &mut [u8], witness: &mut [u8]) -> FormAnswer {
    let (count, among, places, names) = (columns.len(), list.len(), smallest.len(), witness.len());
    let (smallest, witness) = (smallest.as_mut_ptr(), witness.as_mut_ptr());
    // SAFETY: the lists are valid for the counts given with them, the lent ones overlap no other, and the call keeps none.
    unsafe { exported::plan_smallest_of_columns(n, g, columns.as_ptr(), count, list.as_ptr(), among, smallest, places, witness, names) }
}

/// The same of the plan of a run table.
pub fn plan_smallest_of_runs(n: usize, g: usize, runs: &[u16], list: &[u8], smallest: &mut [u8], witness: &mut [u8]) -> FormAnswer {
    let (count, among, places, names) = (runs.len(), list.len(), smallest.len(), witness.len());
    let (smallest, witness) = (smallest.as_mut_ptr(), witness.as_mut_ptr());
    // SAFETY: the lists are valid for the counts given with them, the lent ones overlap no other, and the call keeps none.
    unsafe { exported::plan_smallest_of_runs(n, g, runs.as_ptr(), count, list.as_ptr(), among, smallest, places, witness, names) }
}

/// The smallest forms of several plans in bytes, one after another, and a witness to each, its names and its mask in two bytes: as many places
/// as the plans have.
pub fn plan_smallest_of_plans(n: usize, g: usize, plans: &[u8], forms: &mut [u8], witnesses: &mut [u8]) -> u8 {
    let (count, places, names) = (plans.len(), forms.len(), witnesses.len());
    // SAFETY: the lists are valid for the counts given with them, they do not overlap, and the call keeps none.
    unsafe { exported::plan_smallest_of_plans(n, g, plans.as_ptr(), count, forms.as_mut_ptr(), places, witnesses.as_mut_ptr(), names) }
}

/// What is told of a load: a refusal's number, 0 if accepted, and the state after its draws, the seed as it came if refused.
#[repr(C)]
#[derive(Clone, Copy, Debug, PartialEq, Eq)]
pub struct State {
    pub number: u8,
    pub state: u32,
}

/// The load of a seed: a plan that nobody picked, in bytes, N + 2 places. The state is the seed of the next.
pub fn plan_load(n: usize, g: usize, seed: u32, plan: &mut [u8]) -> State {
    // SAFETY: the list is valid for the count given with it, and the call does not keep it.
    unsafe { exported::plan_load(n, g, seed, plan.as_mut_ptr(), plan.len()) }
}

/// The catalogue's answer: a refusal's number, 0 if accepted, and how many entries the list holds.
#[repr(C)]
#[derive(Clone, Copy, Debug, PartialEq, Eq)]
pub struct Entries {
    pub number: u8,
    pub count: usize,
}

/// The catalogue, its entries in bytes one after another, as many as the list has room for. Refused by 9 where it has more.
pub fn plan_catalogue(n: usize, g: usize, r: usize, columns: &mut [u8]) -> Entries {
    // SAFETY: the list is valid for the count given with it, and the call does not keep it.
    unsafe { exported::plan_catalogue(n, g, r, columns.as_mut_ptr(), columns.len()) }
}

/// The writer's answer: a refusal's number, 0 if accepted, and how many bytes the book has, none if refused.
#[repr(C)]
#[derive(Clone, Copy, Debug, PartialEq, Eq)]
pub struct Bytes {
    pub number: u8,
    pub count: usize,
}

/// The book of several plans in bytes, one after another, their masks 0.
pub fn plan_write_book(n: usize, g: usize, r: usize, plans: &[u8], book: &mut [u8]) -> Bytes {
    let (count, places) = (plans.len(), book.len());
    // SAFETY: the lists are valid for the counts given with them, they do not overlap, and the call keeps none.
    unsafe { exported::plan_write_book(n, g, r, plans.as_ptr(), count, book.as_mut_ptr(), places) }
}

/// The reader's answer: a refusal's number, 0 if accepted, then N, G, R and how many entries the list holds, all 0 if refused.
#[repr(C)]
#[derive(Clone, Copy, Debug, PartialEq, Eq)]
pub struct Book {
    pub number: u8,
    pub factors: u8,
    pub generators: u8,
    pub resolution: u8,
    pub count: usize,
}

/// Reads a book of smallest forms: its entries in bytes, one after another.
pub fn plan_read_book(book: &[u8], columns: &mut [u8]) -> Book {
    // SAFETY: both lists are valid for the counts given with them, they do not overlap, and the call keeps neither.
    unsafe { exported::plan_read_book(book.as_ptr(), book.len(), columns.as_mut_ptr(), columns.len()) }
}
