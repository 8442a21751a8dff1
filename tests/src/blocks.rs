//! Lists in heap blocks of their own, between elements that a call may not touch: valgrind takes an access to them as an error, and without
//! it a write is noticed after the call.

use crate::exported::Element;
use crate::valgrind::{allow, forbid};
use std::ops::Range;

/// How many elements stand on each side of a list, and what fills them.
const BESIDE: usize = 64;
const FILL: u8 = 0xd7;

/// How many elements before and after its list a call is told belong to it: none, but in the tests that this is noticed.
#[derive(Clone, Copy, Debug, Default)]
pub struct Wider {
    pub before: usize,
    pub after: usize,
}

/// A copy of a list, with elements on both sides.
pub struct Block<T> {
    owner: Vec<T>,
    elements: Vec<T>,
    given: Range<usize>,
}

impl<T: Element> Block<T> {
    pub fn new(owner: Vec<T>, wider: Wider) -> Block<T> {
        let beside = [T::filled(FILL); BESIDE];
        let elements = [&beside, &owner[..], &beside].concat();
        let end = BESIDE + owner.len();
        forbid(&elements[..BESIDE]);
        forbid(&elements[end..]);
        Block { owner, elements, given: BESIDE - wider.before..end + wider.after }
    }

    /// The owner's list.
    pub fn owner(&self) -> &[T] {
        &self.owner
    }

    /// The list for a call that reads it.
    pub fn read(&self) -> &[T] {
        &self.elements[self.given.clone()]
    }

    /// The list for a call that fills it.
    pub fn lent(&mut self) -> &mut [T] {
        &mut self.elements[self.given.clone()]
    }

    /// The list as it is now.
    pub fn found(&self) -> &[T] {
        &self.elements[BESIDE..BESIDE + self.owner.len()]
    }

    /// After the call: whether it left this list, and what stands beside it as before.
    pub fn left(&self, list: &[T]) -> bool {
        let (before, after) = (&self.elements[..BESIDE], &self.elements[BESIDE + self.owner.len()..]);
        allow(before);
        allow(after);
        let beside = [T::filled(FILL); BESIDE];
        self.found() == list && before == beside && after == beside
    }
}
