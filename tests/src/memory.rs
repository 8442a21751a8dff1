//! Lists as a caller may place them at worst: each in pages of its own, against a page that no one may touch.
//!
//! A list stands at the start or at the end of its pages, by turns, so that a read or a write past either end of some list stops the
//! program. The bytes on its other side are filled, and must be so after the call. A list that a call only reads must be as before, too, and
//! one in 64 stands in pages that cannot be written.

use std::cell::{Cell, RefCell};
use std::ffi::c_void;
use std::ops::{Deref, DerefMut};
use std::slice;

/// A page of the machine, in bytes.
const PAGE: usize = 4096;

/// How many bytes beside a list are filled, and what fills them.
const BESIDE: usize = 64;
const FILL: u8 = 0xd7;

const NOTHING: i32 = 0;
const READING: i32 = 1;
const READING_AND_WRITING: i32 = 1 | 2;
const PRIVATE_AND_ANONYMOUS: i32 = 0x02 | 0x20;

extern "C" {
    fn mmap(at: *mut c_void, bytes: usize, protection: i32, flags: i32, file: i32, offset: i64) -> *mut c_void;
    fn mprotect(at: *mut c_void, bytes: usize, protection: i32) -> i32;
    fn munmap(at: *mut c_void, bytes: usize) -> i32;
}

/// Pages for one list, between two pages that may not be touched.
struct Room {
    first: *mut u8,
    bytes: usize,
}

impl Room {
    fn new(bytes: usize) -> Room {
        let bytes = bytes.max(1).next_multiple_of(PAGE);
        // SAFETY: new pages at an address of the system's choice; nothing else uses them.
        let whole = unsafe { mmap(std::ptr::null_mut(), bytes + 2 * PAGE, NOTHING, PRIVATE_AND_ANONYMOUS, -1, 0) };
        assert!(whole as isize != -1, "no pages for a list");
        let room = Room { first: whole.cast::<u8>().wrapping_add(PAGE), bytes };
        room.allow(READING_AND_WRITING);
        room
    }

    fn allow(&self, protection: i32) {
        // SAFETY: these pages are this room's own.
        let failed = unsafe { mprotect(self.first.cast(), self.bytes, protection) };
        assert_eq!(failed, 0, "no change of what is allowed on pages");
    }
}

impl Drop for Room {
    fn drop(&mut self) {
        // SAFETY: the pages that `new` made, which no list stands in any more.
        unsafe { munmap(self.first.wrapping_sub(PAGE).cast(), self.bytes + 2 * PAGE) };
    }
}

thread_local! {
    /// Rooms that no list stands in.
    static FREE: RefCell<Vec<Room>> = const { RefCell::new(Vec::new()) };
    /// Decides by its high bits how the next list is placed.
    static DRAWS: Cell<u32> = const { Cell::new(0x2545_f491) };
}

fn room(bytes: usize) -> Room {
    let fitting = FREE.with_borrow_mut(|free| free.iter().position(|room| room.bytes >= bytes).map(|i| free.swap_remove(i)));
    fitting.unwrap_or_else(|| Room::new(bytes))
}

/// A number below the bound, a power of 2.
fn draw(bound: u32) -> u32 {
    DRAWS.with(|draws| {
        draws.set(draws.get().wrapping_mul(1_664_525).wrapping_add(1_013_904_223));
        (draws.get() >> 16) % bound
    })
}

/// A copy of a list in a room, and the filled bytes beside it.
struct Placed<T> {
    room: Option<Room>,
    beside: *mut u8,
    list: *mut T,
    count: usize,
}

impl<T: Copy> Placed<T> {
    fn new(list: &[T]) -> Placed<T> {
        let bytes = size_of_val(list);
        let room = room(bytes + BESIDE);
        let (start, beside) = if draw(2) == 0 { (room.bytes - bytes, room.bytes - bytes - BESIDE) } else { (0, bytes) };
        let (place, beside) = (room.first.wrapping_add(start).cast::<T>(), room.first.wrapping_add(beside));
        // SAFETY: the room has these bytes, both ends of a page are aligned for a list whose bytes are a multiple of its element's, and
        // the list given is not in the room.
        unsafe {
            beside.write_bytes(FILL, BESIDE);
            place.copy_from_nonoverlapping(list.as_ptr(), list.len());
        }
        Placed { room: Some(room), beside, list: place, count: list.len() }
    }

    fn room(&self) -> &Room {
        self.room.as_ref().expect("a list has a room until it is dropped")
    }

    fn elements(&self) -> &[T] {
        // SAFETY: `count` elements stand there, in this room alone.
        unsafe { slice::from_raw_parts(self.list, self.count) }
    }

    fn elements_mut(&mut self) -> &mut [T] {
        // SAFETY: `count` elements stand there, in this room alone.
        unsafe { slice::from_raw_parts_mut(self.list, self.count) }
    }

    /// Whether the bytes beside the list are as they were filled.
    fn rest_is_untouched(&self) -> bool {
        // SAFETY: these bytes of the room were written by `new`.
        unsafe { slice::from_raw_parts(self.beside, BESIDE) == [FILL; BESIDE] }
    }

    fn leave(&mut self) {
        FREE.with_borrow_mut(|free| free.extend(self.room.take()));
    }
}

/// A list that a call reads.
pub struct Read<'a, T: Copy + Eq> {
    placed: Placed<T>,
    sealed: bool,
    owner: &'a [T],
}

impl<T: Copy + Eq> Read<'_, T> {
    pub fn new(owner: &[T]) -> Read<'_, T> {
        let (placed, sealed) = (Placed::new(owner), draw(64) == 0);
        if sealed {
            placed.room().allow(READING);
        }
        Read { placed, sealed, owner }
    }
}

impl<T: Copy + Eq> Deref for Read<'_, T> {
    type Target = [T];

    fn deref(&self) -> &[T] {
        self.placed.elements()
    }
}

impl<T: Copy + Eq> Drop for Read<'_, T> {
    fn drop(&mut self) {
        let untouched = self.placed.elements() == self.owner && self.placed.rest_is_untouched();
        if self.sealed {
            self.placed.room().allow(READING_AND_WRITING);
        }
        self.placed.leave();
        assert!(untouched, "a call wrote to a list that it reads, or beside it");
    }
}

/// A list that a call fills: its elements go back to the caller's own list when it is dropped.
pub struct Lent<'a, T: Copy> {
    placed: Placed<T>,
    owner: &'a mut [T],
}

impl<T: Copy> Lent<'_, T> {
    pub fn new(owner: &mut [T]) -> Lent<'_, T> {
        Lent { placed: Placed::new(owner), owner }
    }
}

impl<T: Copy> Deref for Lent<'_, T> {
    type Target = [T];

    fn deref(&self) -> &[T] {
        self.placed.elements()
    }
}

impl<T: Copy> DerefMut for Lent<'_, T> {
    fn deref_mut(&mut self) -> &mut [T] {
        self.placed.elements_mut()
    }
}

impl<T: Copy> Drop for Lent<'_, T> {
    fn drop(&mut self) {
        self.owner.copy_from_slice(self.placed.elements());
        let untouched = self.placed.rest_is_untouched();
        self.placed.leave();
        assert!(untouched, "a call wrote past a lent list");
    }
}
