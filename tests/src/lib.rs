//! Tests of the proved plan library from outside.
//!
//! `check` is a separate checking program: document 01's definitions by plain enumeration. `exported` has the exported functions, `guarded`
//! calls them, through the crate `planner`, with lists that `memory` places against pages that may not be touched, and `records` keeps how
//! long each took.
//! `calls` makes one call on a plan with a guarded result list, `compare` holds its outcome against the checking program; `pairs` and
//! `compare_pairs` do so for the comparison of two plans, `forms` for the smallest form, `loads` for the load of a seed, `catalogues` for the
//! catalogue, `books` for the writer of books, `reading` for their reader, `program` for what the program `plans` prints, `record_calls` for the
//! calls that C cannot make and the program `records` makes. `random` is a small generator with a seed, `samples` makes plans from it, good and
//! damaged, `book_samples` books, `known` and `hard` plans that are compared in pairs, and `published` reads the rows of document 000's
//! Appendix B. `trial` makes any number of calls of every function. `recorded` writes calls as bytes, and `replay` makes them again, with lists
//! in the `blocks` that `valgrind` watches. `repository` has the repository's own files, for the tests that hold its pages to them.

pub mod blocks;
pub mod book_samples;
pub mod books;
pub mod calls;
pub mod catalogues;
pub mod check;
pub mod compare;
pub mod compare_pairs;
pub mod exported;
pub mod forms;
pub mod guarded;
pub mod hard;
pub mod known;
pub mod loads;
pub mod memory;
pub mod pairs;
pub mod program;
pub mod published;
pub mod random;
pub mod reading;
pub mod record_calls;
pub mod recorded;
pub mod records;
pub mod replay;
pub mod repository;
pub mod samples;
pub mod trial;
pub mod valgrind;
