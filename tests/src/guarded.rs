//! The exported functions with every list in memory that shows a read or a write past its ends, with their times kept and their calls
//! recorded.

use crate::exported::exported;
use crate::memory::{Lent, Read};
use crate::recorded::Call;
use crate::records::timed;
use planner::{Book, Bytes, Entries, FormAnswer, Signs, State};

/// Declares each function of the crate `planner` under its name.
macro_rules! guarded {
    ($($name:ident($($size:ident),*; $($list:ident: $from:ty),*; $($bits:ident: $of:ty)?; $($lent:ident: $to:ty),*) -> $answer:ty;)*) => {$(
        pub fn $name($($size: usize,)* $($list: &[$from],)* $($bits: $of,)? $($lent: &mut [$to],)*) -> $answer {
            $(let $list = Read::new($list);)*
            $(let mut $lent = Lent::new($lent);)*
            let mut call = Call::new(stringify!($name), &[$($size as u64,)* $($bits.into())?]);
            $(call.list(&$list);)*
            $(call.list(&$lent);)*
            let input = ($($size,)* $(&$list[..],)* $($bits,)? $($lent.len(),)*);
            let answer = timed(stringify!($name), input, || planner::$name($($size,)* $(&$list,)* $($bits,)? $(&mut $lent,)*));
            call.answer(answer);
            $(call.left(&$lent);)*
            call.keep();
            answer
        }
    )*};
}
exported!(guarded);
