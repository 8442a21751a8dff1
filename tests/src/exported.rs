//! The exported functions, each once: its name, what it takes and what it answers.

use planner::{Book, Bytes, Entries, FormAnswer, Signs, State};
use std::fmt::Debug;

/// Hands every function to a macro: its sizes; the lists that it reads; its signs, mask or seed, if it takes one; the lists that it fills; its
/// answer.
macro_rules! exported {
    ($to:ident) => {
        $to! {
            plan_columns_of_words(n, g; words: u16; signs: u16; plan: u8) -> u8;
            plan_columns_of_runs(n, g; runs: u16;; plan: u8) -> u8;
            plan_words_of_columns(n, g; plan: u8;; words: u16) -> Signs;
            plan_runs_of_columns(n, g; plan: u8;; runs: u16) -> u8;
            plan_runs_of_words(n, g; words: u16; signs: u16; runs: u16) -> u8;
            plan_pattern_of_columns(n, g; columns: u8;; pattern: u16) -> u8;
            plan_pattern_of_words(n, g; words: u16; signs: u16; pattern: u16) -> u8;
            plan_pattern_of_runs(n, g; runs: u16;; pattern: u16) -> u8;
            plan_resolution_of_columns(n, g; columns: u8;; resolution: u8) -> u8;
            plan_resolution_of_words(n, g; words: u16; signs: u16; resolution: u8) -> u8;
            plan_resolution_of_runs(n, g; runs: u16;; resolution: u8) -> u8;
            plan_distances_of_columns(n, g; columns: u8;; counts: u16) -> u8;
            plan_distances_of_words(n, g; words: u16; signs: u16; counts: u16) -> u8;
            plan_distances_of_runs(n, g; runs: u16;; counts: u16) -> u8;
            plan_aberration_refusal(n, g; first: u16, second: u16;;) -> u8;
            plan_less_aberration(n, g; first: u16, second: u16;;) -> u8;
            plan_compare_columns(n, g; first: u8, second: u8;; witness: u8) -> u32;
            plan_compare_runs(n, g; first: u16, second: u16;; witness: u8) -> u32;
            plan_check_witness(n, g; first: u16, second: u16, names: u8; mask: u16;) -> u32;
            plan_smallest_of_columns(n, g; columns: u8, list: u8;; smallest: u8, witness: u8) -> FormAnswer;
            plan_smallest_of_runs(n, g; runs: u16, list: u8;; smallest: u8, witness: u8) -> FormAnswer;
            plan_smallest_of_plans(n, g; plans: u8;; forms: u8, witnesses: u8) -> u8;
            plan_load(n, g;; seed: u32; plan: u8) -> State;
            plan_catalogue(n, g, r;;; columns: u8) -> Entries;
            plan_write_book(n, g, r; plans: u8;; book: u8) -> Bytes;
            plan_read_book(; book: u8;; columns: u8) -> Book;
        }
    };
}
pub(crate) use exported;

macro_rules! names {
    ($($name:ident($($taken:tt)*) -> $answer:ty;)*) => {
        /// Their names, in this order.
        pub const NAMES: &[&str] = &[$(stringify!($name)),*];
    };
}
exported!(names);

/// What a function answers, as three numbers: the answer itself or its refusal's number; signs, a mask, a state, or N, G and R in a byte each;
/// a place or a count. 0 where it has none.
pub trait Answer: Copy {
    fn numbers(self) -> [u64; 3];
}

impl Answer for u8 {
    fn numbers(self) -> [u64; 3] {
        [self.into(), 0, 0]
    }
}

impl Answer for u32 {
    fn numbers(self) -> [u64; 3] {
        [self.into(), 0, 0]
    }
}

impl Answer for Signs {
    fn numbers(self) -> [u64; 3] {
        [self.number.into(), self.signs.into(), 0]
    }
}

impl Answer for FormAnswer {
    fn numbers(self) -> [u64; 3] {
        [self.number.into(), self.mask.into(), self.place as u64]
    }
}

impl Answer for State {
    fn numbers(self) -> [u64; 3] {
        [self.number.into(), self.state.into(), 0]
    }
}

impl Answer for Entries {
    fn numbers(self) -> [u64; 3] {
        [self.number.into(), 0, self.count as u64]
    }
}

impl Answer for Bytes {
    fn numbers(self) -> [u64; 3] {
        [self.number.into(), 0, self.count as u64]
    }
}

impl Answer for Book {
    fn numbers(self) -> [u64; 3] {
        let sizes = [self.factors, self.generators, self.resolution, 0];
        [self.number.into(), u32::from_le_bytes(sizes).into(), self.count as u64]
    }
}

/// What lists have: columns, names and bytes of a book, or words, runs, patterns and counts.
pub trait Element: Copy + Debug + Eq {
    /// the bytes of a list, the lower byte of an element first
    fn to_bytes(list: &[Self]) -> Vec<u8>;
    fn of_bytes(bytes: &[u8]) -> Vec<Self>;
    /// an element that is all this byte
    fn filled(byte: u8) -> Self;
}

impl Element for u8 {
    fn to_bytes(list: &[u8]) -> Vec<u8> {
        list.to_vec()
    }

    fn of_bytes(bytes: &[u8]) -> Vec<u8> {
        bytes.to_vec()
    }

    fn filled(byte: u8) -> u8 {
        byte
    }
}

impl Element for u16 {
    fn to_bytes(list: &[u16]) -> Vec<u8> {
        list.iter().flat_map(|element| element.to_le_bytes()).collect()
    }

    fn of_bytes(bytes: &[u8]) -> Vec<u16> {
        bytes.chunks_exact(2).map(|pair| u16::from_le_bytes([pair[0], pair[1]])).collect()
    }

    fn filled(byte: u8) -> u16 {
        u16::from_le_bytes([byte; 2])
    }
}
