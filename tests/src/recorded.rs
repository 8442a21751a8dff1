//! Calls as bytes, each with its answer and its lists before and after, so that it can be made again and held against them.
//!
//! A record is calls, one after another, and its end. Every number is of 8 bytes, the lowest first.
//!
//!     a call   the function's place among the exported ones, from 1
//!              its sizes, and its signs, mask or seed if it takes one
//!              each list that it reads, then each lent list before the call: its count of bytes, and its bytes
//!              its answer, of three numbers
//!              each lent list after the call: its bytes
//!     the end  0, and how many calls the record has

use crate::exported::{Answer, Element, NAMES};
use std::cell::RefCell;
use std::io::Read;

thread_local! {
    /// The calls recorded so far, if this thread records its calls.
    static CALLS: RefCell<Option<Vec<u8>>> = const { RefCell::new(None) };
}

/// From now on this thread records its calls.
pub fn record() {
    CALLS.set(Some(Vec::new()));
}

/// The calls since `record` or since the last time they were taken.
pub fn taken() -> Vec<u8> {
    CALLS.with_borrow_mut(|calls| calls.as_mut().map(std::mem::take).unwrap_or_default())
}

/// The end of a record of so many calls.
pub fn end(calls: u64) -> Vec<u8> {
    [0, calls].map(u64::to_le_bytes).concat()
}

/// A call while it is made. Nothing of it is kept unless this thread records its calls.
pub struct Call {
    bytes: Option<Vec<u8>>,
}

impl Call {
    /// The call of the function with these sizes, and its signs, mask or seed if it takes one.
    pub fn new(name: &str, sizes: &[u64]) -> Call {
        let recording = CALLS.with_borrow(Option::is_some);
        let mut call = Call { bytes: recording.then(Vec::new) };
        let place = || NAMES.iter().position(|&known| known == name).expect("an exported function") as u64 + 1;
        call.add(|| [&[place()], sizes].concat().iter().flat_map(|number| number.to_le_bytes()).collect());
        call
    }

    fn add(&mut self, bytes: impl FnOnce() -> Vec<u8>) {
        if let Some(call) = &mut self.bytes {
            call.extend(bytes());
        }
    }

    /// A list that the call reads, or a lent list before it.
    pub fn list<T: Element>(&mut self, list: &[T]) {
        self.add(|| (size_of_val(list) as u64).to_le_bytes().to_vec());
        self.left(list);
    }

    pub fn answer(&mut self, answer: impl Answer) {
        self.add(|| answer.numbers().map(u64::to_le_bytes).concat());
    }

    /// A lent list after the call.
    pub fn left<T: Element>(&mut self, list: &[T]) {
        self.add(|| T::to_bytes(list));
    }

    /// The call is complete.
    pub fn keep(self) {
        if let Some(call) = self.bytes {
            CALLS.with_borrow_mut(|calls| calls.get_or_insert_default().extend(call));
        }
    }
}

/// A record that is read.
pub struct Recorded<'a> {
    from: &'a mut dyn Read,
}

impl Recorded<'_> {
    pub fn new(from: &mut dyn Read) -> Recorded<'_> {
        Recorded { from }
    }

    /// The next bytes. Fails if the record does not have so many.
    pub fn bytes(&mut self, count: u64) -> Vec<u8> {
        let mut bytes = Vec::new();
        let read = self.from.take(count).read_to_end(&mut bytes).expect("a record that can be read");
        assert_eq!(read as u64, count, "the record is cut off");
        bytes
    }

    pub fn number(&mut self) -> u64 {
        let mut bytes = [0; 8];
        self.from.read_exact(&mut bytes).expect("a record that is not cut off");
        u64::from_le_bytes(bytes)
    }

    /// A list with its count.
    pub fn list<T: Element>(&mut self) -> Vec<T> {
        let count = self.number();
        T::of_bytes(&self.bytes(count))
    }

    /// A list of so many elements, without its count.
    pub fn left<T: Element>(&mut self, count: usize) -> Vec<T> {
        T::of_bytes(&self.bytes((count * size_of::<T>()) as u64))
    }

    pub fn answer(&mut self) -> [u64; 3] {
        [(); 3].map(|_| self.number())
    }

    /// Fails unless the record ends here, after so many calls.
    pub fn assert_ended(&mut self, calls: u64) {
        assert_eq!(self.number(), calls, "how many calls the record has, and how many it says");
        assert_eq!(self.from.read(&mut [0]).expect("a record that can be read"), 0, "the record goes on after its end");
    }
}
