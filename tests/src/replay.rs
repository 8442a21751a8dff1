//! Recorded calls made again, each held against its record.

use crate::blocks::{Block, Wider};
use crate::exported::{exported, Answer, Element, NAMES};
use crate::recorded::Recorded;
use std::io::Read;

macro_rules! replayed {
    ($($name:ident($($size:ident),*; $($list:ident: $from:ty),*; $($bits:ident: $of:ty)?; $($lent:ident: $to:ty),*) -> $answer:ty;)*) => {
        /// For each function, in the order of their names, what makes its next call of the record. Fails unless the answer and every list
        /// are as recorded, and nothing beside a list has changed.
        const CALLS: &[fn(&mut Recorded, Wider)] = &[$(|record, wider| {
            $(let $size = record.number() as usize;)*
            $(let $bits = record.number() as $of;)?
            $(let $list = Block::<$from>::new(record.list(), wider);)*
            $(let mut $lent = Block::<$to>::new(record.list(), wider);)*
            let answer = planner::$name($($size,)* $($list.read(),)* $($bits,)? $($lent.lent(),)*);
            let input = ($($size,)* $($list.owner(),)* $($bits,)? $($lent.owner().len(),)*);
            assert_eq!(answer.numbers(), record.answer(), "the answer, and the recorded one, of {}{input:?}", stringify!($name));
            $(check(&$list, $list.owner(), || format!("{} of {}{input:?}", stringify!($list), stringify!($name)));)*
            $(check(&$lent, &record.left($lent.owner().len()), || format!("{} of {}{input:?}", stringify!($lent), stringify!($name)));)*
        }),*];
    };
}
exported!(replayed);

/// Fails unless the call left the list as recorded, and what is beside it as before.
fn check<T: Element>(block: &Block<T>, recorded: &[T], name: impl FnOnce() -> String) {
    assert!(block.left(recorded), "{} is {:?}, recorded {recorded:?}, or has other elements beside it", name(), block.found());
}

/// Makes the calls of a record again. Returns how many there are of each function, in the order of their names. Fails unless the record is
/// whole and every call comes to what is recorded of it.
pub fn replay(from: &mut dyn Read, wider: Wider) -> Vec<u64> {
    let mut record = Recorded::new(from);
    let mut made = vec![0; NAMES.len()];
    while let place @ 1.. = record.number() as usize {
        let call = CALLS.get(place - 1).unwrap_or_else(|| panic!("the record has a function {place}"));
        call(&mut record, wider);
        made[place - 1] += 1;
    }
    record.assert_ended(made.iter().sum());
    made
}
