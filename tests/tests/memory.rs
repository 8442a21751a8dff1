//! The memory that lists are placed in shows what it is there to show.

use plan_tests::memory::{Lent, Read};
use std::panic::{catch_unwind, AssertUnwindSafe};

/// The signal of an access to a page that may not be touched.
const INVALID_ACCESS: i32 = 11;

extern "C" {
    fn fork() -> i32;
    fn waitpid(process: i32, status: *mut i32, options: i32) -> i32;
    fn _exit(status: i32) -> !;
}

/// Whether the access stops the program that makes it: a child process tries.
fn stops(access: impl FnOnce()) -> bool {
    // SAFETY: the child makes one access and ends.
    unsafe {
        let child = fork();
        if child == 0 {
            access();
            _exit(0);
        }
        let mut status = 0;
        assert!(child > 0 && waitpid(child, &mut status, 0) == child, "no child process");
        status & 0x7f == INVALID_ACCESS
    }
}

fn read(place: *const u16) {
    // SAFETY: in a child process, which may be stopped by it.
    unsafe { place.read_volatile() };
}

fn write(place: *mut u16) {
    // SAFETY: in a child process, which may be stopped by it, or beside a list in memory that is its own.
    unsafe { place.write_volatile(0) };
}

#[test]
fn a_read_past_just_one_end_of_a_list_stops_the_program() {
    let mut ends = [0, 0];
    for count in [0, 1, 5, 2048, 5000].into_iter().cycle().take(60) {
        let list = vec![7u16; count];
        let placed = Read::new(&list);
        let (first, after) = (placed.as_ptr(), placed.as_ptr_range().end);
        let stopped = [stops(|| read(first.wrapping_sub(1))), stops(|| read(after))];
        assert!(stopped[0] != stopped[1], "{count} elements: {stopped:?}");
        ends[usize::from(stopped[1])] += 1;
    }
    assert!(ends[0] > 10 && ends[1] > 10, "lists at the start and at the end of their pages: {ends:?}");
}

#[test]
fn a_write_past_either_end_of_a_lent_list_is_noticed() {
    for count in [0, 1, 16, 128].into_iter().cycle().take(40) {
        let mut list = vec![7u16; count];
        let mut placed = Lent::new(&mut list);
        let (before, after) = (placed.as_mut_ptr().wrapping_sub(1), placed.as_mut_ptr_range().end);
        assert!(stops(|| write(before)) != stops(|| write(after)), "{count} elements");
        let beside = if stops(|| write(before)) { after } else { before };
        write(beside);
        assert!(catch_unwind(AssertUnwindSafe(|| drop(placed))).is_err(), "{count} elements");
    }
}

#[test]
fn a_write_to_a_list_that_is_read_is_noticed() {
    let (mut stopped, mut written, mut noticed) = (0, 0, 0);
    for _ in 0..1000 {
        let list = [7u16; 4];
        let placed = Read::new(&list);
        let place = placed.as_ptr().cast_mut();
        if stopped == 0 && stops(|| write(place)) {
            stopped += 1;
        } else if stopped == 0 {
            write(place);
            written += 1;
            noticed += usize::from(catch_unwind(AssertUnwindSafe(|| drop(placed))).is_err());
        }
    }
    assert!(stopped == 1 && written > 0 && noticed == written, "{stopped} stopped, {noticed} of {written} noticed");
}

#[test]
fn a_lent_list_goes_back_to_its_owner() {
    let mut list = [1u8, 2, 3];
    Lent::new(&mut list)[1] = 9;
    assert_eq!(list, [1, 9, 3]);
}
