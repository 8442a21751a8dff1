//! Recorded calls made again under valgrind come to what is recorded of them, and what would be wrong is noticed. The program
//! `reliability` does so with a million.

use plan_tests::blocks::{Block, Wider};
use plan_tests::exported::NAMES;
use plan_tests::guarded::{plan_aberration_refusal, plan_catalogue, plan_check_witness, plan_load, plan_smallest_of_runs};
use plan_tests::recorded::{end, record, taken};
use plan_tests::records::made;
use plan_tests::replay::replay;
use plan_tests::trial::Trial;
use std::io::{Result, Write};
use std::panic::catch_unwind;
use std::process::{Command, Output, Stdio};

const CALLS: u64 = 20_000;

/// How many calls are made before they are handed over.
const AT_ONCE: u64 = 500;

/// The status that valgrind ends with if it found an error.
const ERRORS: i32 = 9;

/// Three numbers of 8 bytes: an answer in a record.
const ANSWER: usize = 24;

/// Where the seed of a load stands in its record: after the function's place and two sizes.
const SEED: usize = 24;

/// How the program ends under valgrind that makes the calls of a record again, as they are sent to it.
fn under_valgrind(arguments: &[&str], send: impl FnOnce(&mut dyn Write) -> Result<()>) -> Output {
    let mut command = Command::new("valgrind");
    command.args(["--quiet", "--exit-on-first-error=yes"]).arg(format!("--error-exitcode={ERRORS}"));
    command.arg(env!("CARGO_BIN_EXE_reliability")).arg("--replay").args(arguments).env("RUST_BACKTRACE", "0");
    let mut child = command.stdin(Stdio::piped()).stdout(Stdio::piped()).stderr(Stdio::piped()).spawn().expect("Debian's valgrind");
    let sent = send(&mut child.stdin.take().expect("a pipe"));
    let found = child.wait_with_output().expect("valgrind ends");
    assert!(sent.is_ok() || !found.status.success(), "valgrind did not read all: {sent:?}");
    found
}

#[test]
fn calls_under_valgrind_come_to_what_the_checking_program_has() {
    let mut trial = Trial::new(0x3a19);
    let found = under_valgrind(&[], |to| {
        record();
        while made() < CALLS {
            trial.run(made() + AT_ONCE);
            to.write_all(&taken())?;
        }
        to.write_all(&end(made()))
    });
    let (output, errors) = (String::from_utf8_lossy(&found.stdout), String::from_utf8_lossy(&found.stderr));
    let (calls, functions) = (made(), NAMES.len());
    let expected = format!("{calls} calls of {functions} functions made again as recorded, under valgrind, which found 0 errors\n");
    assert!(found.status.success() && output == expected && errors.is_empty(), "{}: {output}{errors}", found.status);
}

/// The record of so many calls.
fn recorded(calls: u64, make: impl FnOnce()) -> Vec<u8> {
    record();
    make();
    [taken(), end(calls)].concat()
}

/// A call that reads two lists of one word, though it takes lists of two, and one that fills a list of four places, though the catalogue has
/// one entry of five bytes: they are refused. With lists one element wider, they read or write the element beside.
fn short_by_one() -> [Vec<u8>; 2] {
    let reads = recorded(1, || assert_eq!(plan_aberration_refusal(5, 2, &[0b111], &[0b111]), 4));
    let fills = recorded(1, || assert_eq!(plan_catalogue(3, 1, 3, &mut [0; 4]).number, 9));
    [reads, fills]
}

#[test]
fn valgrind_notices_a_call_that_reads_or_writes_past_either_end_of_a_list() {
    for (record, access) in short_by_one().iter().zip(["Invalid read of size 2", "Invalid write of size"]) {
        for (arguments, status) in [(&[][..], 0), (&["--before", "1"], ERRORS), (&["--after", "1"], ERRORS)] {
            let found = under_valgrind(arguments, |to| to.write_all(record));
            let errors = String::from_utf8_lossy(&found.stderr);
            assert_eq!(found.status.code(), Some(status), "{arguments:?}: {errors}");
            assert_eq!(errors.contains(access), status == ERRORS, "{arguments:?}: {errors}");
        }
    }
}

/// Whether the calls of the record come to what is recorded of them.
fn agrees(record: &[u8]) -> bool {
    catch_unwind(|| replay(&mut &record[..], Wider::default())).is_ok()
}

/// One call of a plan's smallest form, with its two lent lists.
fn smallest_form(places: usize) -> Vec<u8> {
    recorded(1, || {
        let (mut smallest, mut witness) = (vec![0xaa; places], vec![0xbb; places]);
        let runs = [0b000, 0b011, 0b101, 0b110];
        let answer = plan_smallest_of_runs(3, 1, &runs, &[1, 2, 3, 0, 0], &mut smallest, &mut witness);
        assert_eq!(answer.number, if places < 5 { 8 } else { 0 });
    })
}

/// One call of a load, with its lent list.
fn load(places: usize) -> Vec<u8> {
    recorded(1, || assert_eq!(plan_load(3, 1, 0x9e37_79b9, &mut vec![0xaa; places]).number, if places < 5 { 8 } else { 0 }))
}

#[test]
fn a_record_with_any_other_answer_or_list_is_refused() {
    for places in [0, 2, 4, 5, 7] {
        for (whole, left) in [(smallest_form(places), 2 * places), (load(places), places)] {
            assert!(agrees(&whole));
            let last = whole.len() - end(1).len();
            for place in last - left - ANSWER..last {
                for bit in 0..8 {
                    let mut other = whole.clone();
                    other[place] ^= 1 << bit;
                    assert!(!agrees(&other), "{places} places, byte {place}, bit {bit}");
                }
            }
        }
    }
}

#[test]
fn a_record_with_another_seed_is_refused() {
    for places in [4, 5] {
        let whole = load(places);
        assert_eq!(whole[SEED..SEED + 4], 0x9e37_79b9_u32.to_le_bytes());
        for bit in 0..32 {
            let mut other = whole.clone();
            other[SEED + bit / 8] ^= 1 << (bit % 8);
            assert!(!agrees(&other), "{places} places, bit {bit}");
        }
    }
}

#[test]
fn a_record_that_is_cut_off_or_goes_on_is_refused() {
    let whole = recorded(2, || {
        let table = [0b00, 0b01, 0b10, 0b11];
        plan_check_witness(2, 0, &table, &table, &[0, 1], 0);
        assert_eq!(plan_catalogue(3, 1, 3, &mut [0; 5]).count, 1);
    });
    assert!(agrees(&whole));
    for count in 0..whole.len() {
        assert!(!agrees(&whole[..count]), "{count} bytes of {}", whole.len());
    }
    assert!(!agrees(&[&whole[..], &[0]].concat()));
    let calls = &whole[..whole.len() - end(2).len()];
    assert!(!agrees(&[calls, &end(1)].concat()));
    let no_function = (NAMES.len() as u64 + 1).to_le_bytes();
    assert!(!agrees(&[calls, &no_function, &end(2)].concat()));
}

#[test]
fn what_stands_beside_a_list_must_be_as_before() {
    let whole = |list: &[u16], wider| Block::new(list.to_vec(), wider);
    for wider in [Wider { before: 1, after: 0 }, Wider { before: 0, after: 1 }] {
        for count in [0, 1, 5] {
            let list = vec![7u16; count];
            let mut block = whole(&list, wider);
            assert!(block.left(&list) && block.owner() == list && block.read().len() == count + 1);
            let place = if wider.before > 0 { 0 } else { count };
            block.lent()[place] ^= 0x100;
            assert!(!block.left(&list), "{count} elements, {wider:?}");
        }
    }
    let mut block = whole(&[1, 2, 3], Wider::default());
    block.lent()[1] = 9;
    assert!(block.left(&[1, 9, 3]) && !block.left(&[1, 2, 3]));
}
