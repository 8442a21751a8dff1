//! What a program can ask of valgrind, by the instructions and numbers of its headers valgrind.h and memcheck.h. Without valgrind, or on a
//! processor other than x86-64, nothing comes of it.

const IS_RUNNING: usize = 0x1001;
const COUNT_ERRORS: usize = 0x1201;
const FORBID: usize = 0x4d43_0000;
const ALLOW: usize = FORBID + 2;

/// The answer to a request about bytes from a place on, 0 without valgrind.
#[cfg(target_arch = "x86_64")]
fn ask(request: usize, place: usize, bytes: usize) -> usize {
    let question = [request, place, bytes, 0, 0, 0];
    let mut answer = 0;
    // SAFETY: without valgrind these turn rdi by twice its 64 bits and exchange rbx with itself, so that only the flags change.
    unsafe {
        std::arch::asm!(
            "rol rdi, 3",
            "rol rdi, 13",
            "rol rdi, 61",
            "rol rdi, 51",
            "xchg rbx, rbx",
            in("rax") question.as_ptr(),
            inout("rdx") answer,
        );
    }
    answer
}

#[cfg(not(target_arch = "x86_64"))]
fn ask(_: usize, _: usize, _: usize) -> usize {
    0
}

/// How many errors valgrind has found so far; none if the program does not run under it.
pub fn errors() -> Option<usize> {
    (ask(IS_RUNNING, 0, 0) > 0).then(|| ask(COUNT_ERRORS, 0, 0))
}

/// From now on valgrind takes every access to these elements as an error.
pub fn forbid<T>(list: &[T]) {
    ask(FORBID, list.as_ptr() as usize, size_of_val(list));
}

/// The elements may be read and written again, and have the values that they had.
pub fn allow<T>(list: &[T]) {
    ask(ALLOW, list.as_ptr() as usize, size_of_val(list));
}
