//! The checking program: the definitions of document 01 by plain enumeration over sets of factors and over runs.
//!
//! Written from the papers and sharing no code with the Rattle crates. A run, a set of factors and a column are numbers: bit f of a run
//! says that factor f is low, bit f of a set that factor f is in it, bit i of a column that basic factor i enters that factor.
//! Whether two plans are the same is decided by trying every renaming, and for more than seven factors by canonical labels.
//! The smallest form is found by trying every order of basic factors. That no plan is missing from a catalogue is seen by counting sets of
//! columns. Books are read by document 02's checks, in their order. Signs and masks are those of its request 5, loads those of its request 6.

pub mod bits;
pub mod book;
pub mod columns;
pub mod counting;
pub mod growth;
pub mod labels;
pub mod load;
pub mod measures;
pub mod plan;
pub mod reading;
pub mod refusals;
pub mod renamings;
pub mod runs;
pub mod smallest;
pub mod words;
