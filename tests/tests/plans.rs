//! The program `plans`: sizes, refusals, lines that give no size, and what it leaves unread.

use plan_tests::catalogues::entries;
use plan_tests::program::{
    compare_line, compare_sizes, confirm_listing, pipe_of, printed, printed_and_left, printed_by_shell, program, refused_line, NOT_A_SIZE,
};
use std::fs::{remove_file, write, File};
use std::os::fd::OwnedFd;
use std::process::Stdio;

/// The example of document 01.
const EXAMPLE: &str = "catalogue 5 1 3 entries 3
1 res 3 columns 1 2 3 4 8 pattern 1 0 0
2 res 4 columns 1 2 4 7 8 pattern 0 1 0
3 res 5 columns 1 2 4 8 15 pattern 0 0 1
";

/// A file that holds these bytes and has no name.
fn file_of(name: &str, bytes: &[u8]) -> OwnedFd {
    let path = format!("{}/{name}", env!("CARGO_TARGET_TMPDIR"));
    write(&path, bytes).expect("a file");
    let file = File::open(&path).expect("the file");
    remove_file(&path).expect("the file has a name");
    file.into()
}

#[test]
fn the_program_is_there() {
    assert!(program().is_file());
}

#[test]
fn the_example_of_document_01() {
    compare_line("5 1 3", EXAMPLE);
}

#[test]
fn a_line_of_fewer_than_three_factors_ends_with_the_word_pattern() {
    compare_line("1 0 3", "catalogue 1 0 3 entries 1\n1 res 2 columns 1 pattern\n");
    compare_line("2 0 16", "catalogue 2 0 16 entries 1\n1 res 3 columns 1 2 pattern\n");
    compare_line("3 0 3", "catalogue 3 0 3 entries 1\n1 res 4 columns 1 2 4 pattern 0\n");
    compare_line("2 1 3", "catalogue 2 1 3 entries 0\n");
}

#[test]
fn a_full_factorial_keeps_its_entry_where_r_is_above_its_resolution() {
    compare_line("3 0 5", "catalogue 3 0 5 entries 1\n1 res 4 columns 1 2 4 pattern 0\n");
    compare_line("1 0 16", "catalogue 1 0 16 entries 1\n1 res 2 columns 1 pattern\n");
    compare_line("7 0 16", "catalogue 7 0 16 entries 1\n1 res 8 columns 1 2 4 8 16 32 64 pattern 0 0 0 0 0\n");
}

#[test]
fn every_size_in_2_to_16_runs() {
    for (m, n) in [(1, 16), (2, 16), (3, 16), (4, 16)] {
        let (listed, refused, _) = compare_sizes(m, n);
        assert_eq!((listed, refused), (14 * (n - m + 1), 0));
    }
}

#[test]
fn sizes_in_32_to_128_runs() {
    for (m, n) in [(5, 11), (6, 10), (7, 8)] {
        let (listed, refused, _) = compare_sizes(m, n);
        assert_eq!((listed, refused), (14 * (n - m + 1), 0));
    }
}

#[test]
fn larger_sizes_whose_counts_are_published() {
    for (n, m, r, count) in
        [(12, 5, 3, 89), (14, 5, 3, 128), (16, 5, 3, 145), (11, 6, 3, 273), (12, 6, 3, 700), (10, 7, 4, 33), (12, 7, 4, 249)]
    {
        confirm_listing(n, m, r, count);
    }
}

/// Every size that is not refused by 1, 2 or 3: N, M and R.
fn every_size() -> impl Iterator<Item = (usize, usize, usize)> {
    (1..=16).flat_map(|n| (1..=n.min(7)).flat_map(move |m| (3..=16).map(move |r| (n, m, r))))
}

/// The closest to 1,024 entries are 12 6 3, which has 700 and is listed, and 12 5 3, which has 1,285 and is refused.
#[test]
fn exactly_the_sizes_with_more_than_1024_entries_are_refused_by_9() {
    let mut refused = Vec::new();
    for (n, m, r) in every_size() {
        let (whole, entries) = entries(n, n - m, r, 1_284);
        assert!(!whole || entries.len() <= 700, "{n} {} {r} has {} entries", n - m, entries.len());
        let line = format!("{n} {} {r}", n - m);
        let header = if whole { format!("catalogue {line} entries {}", entries.len()) } else { "refused 9".to_string() };
        let found = printed(pipe_of(line.as_bytes()));
        assert_eq!(found.lines().next(), Some(header.as_str()), "for '{line}'");
        assert_eq!(found.lines().count(), if whole { 1 + entries.len() } else { 1 }, "for '{line}'");
        refused.extend((!whole).then_some(line));
    }
    let larger = ["12 5 3", "13 7 3", "13 6 3", "14 8 3", "14 7 3", "14 7 4", "15 9 3", "15 8 3", "15 8 4", "16 10 3", "16 9 3", "16 9 4"];
    assert_eq!(refused, larger);
}

#[test]
fn refused_sizes() {
    let mut reached = [0; 4];
    for n in [0, 1, 2, 5, 9, 16, 17, 18, 99] {
        for g in [0, 1, 2, 5, 8, 9, 15, 16, 17, 99] {
            for r in [0, 2, 3, 16, 17, 99] {
                if let Some(line) = refused_line(n, g, r) {
                    compare_line(&format!("{n} {g} {r}"), &line);
                    reached[usize::from(line.as_bytes()[8] - b'0')] += 1;
                }
            }
        }
    }
    assert!(reached[1..].iter().all(|&count| count > 20), "{reached:?}");
}

#[test]
fn a_number_of_two_digits_may_begin_with_0() {
    for line in ["05 1 3", "5 01 3", "5 1 03", "05 01 03"] {
        compare_line(line, EXAMPLE);
    }
    compare_line("5 00 3", "catalogue 5 0 3 entries 1\n1 res 6 columns 1 2 4 8 16 pattern 0 0 0\n");
    for (line, number) in [("00 0 3", 1), ("00 00 00", 1), ("05 05 3", 2), ("5 1 00", 3), ("5 1 02", 3)] {
        compare_line(line, &format!("refused {number}\n"));
    }
}

/// Lines that give no size.
const NO_SIZES: &[&str] = &[
    "",
    " ",
    "5",
    "5 1",
    "5 1 ",
    "5 1 3 ",
    " 5 1 3",
    "5  1 3",
    "5 1  3",
    "5\t1\t3",
    "5 1\t3",
    "5 1 3\t",
    "5,1,3",
    "5 1 3 4",
    "5 1 3 ",
    "005 1 3",
    "5 001 3",
    "5 1 003",
    "100 1 3",
    "5 100 3",
    "5 1 100",
    "+5 1 3",
    "5 +1 3",
    "5 1 +3",
    "-5 1 3",
    "5 -1 3",
    "5 1 -3",
    "-0 1 3",
    "5.0 1 3",
    "0x5 1 3",
    "5e0 1 3",
    "a 1 3",
    "5 b 3",
    "5 1 c",
    "five 1 3",
    "5 1 3\r",
    "\r",
    "5\r1\r3",
    "5 1 3\0",
    "\05 1 3",
    "5\01\03",
    "5 \0 3",
    "\0",
    "5 1 3\x0b",
    "\x0c5 1 3",
    "5 1 3#",
    "5 1 3;",
    "/ 1 3",
    "5 : 3",
    "5 1 :",
    "5 1 /",
    "16 16 16 ",
    "16 16 166",
    "16 16 16 16",
    "\u{feff}5 1 3",
    "5\u{a0}1 3",
    "\u{ff15} 1 3",
    "5 1 \u{b3}",
];

#[test]
fn lines_that_give_no_size() {
    for line in NO_SIZES {
        compare_line(line, NOT_A_SIZE);
    }
}

#[test]
fn bytes_above_127_give_no_size() {
    for byte in 128..=255 {
        for line in [vec![byte], [b"5 1 3", &[byte][..]].concat(), [&[byte][..], b"5 1 3"].concat(), [b"5", &[byte][..], b"1 3"].concat()] {
            assert_eq!(printed(pipe_of(&line)), NOT_A_SIZE, "{line:?}");
        }
    }
}

#[test]
fn no_input_is_an_empty_line() {
    assert_eq!(printed(pipe_of(b"")), NOT_A_SIZE);
    assert_eq!(printed(Stdio::null()), NOT_A_SIZE);
    assert_eq!(printed_by_shell("\"$0\" <&-", b"5 1 3\n"), NOT_A_SIZE);
}

#[test]
fn the_input_may_end_without_a_newline() {
    assert_eq!(printed(pipe_of(b"5 1 3")), EXAMPLE);
    assert_eq!(printed(pipe_of(b"05 01 03")), EXAMPLE);
    assert_eq!(printed(pipe_of(b"5 1 3 ")), NOT_A_SIZE);
    assert_eq!(printed(file_of("without_newline", b"5 1 3")), EXAMPLE);
}

#[test]
fn what_follows_the_first_line_is_left_unread() {
    for rest in [&b"\n"[..], b"4 1 3\n", b"x", b"\0\xff\r\n\n", &[b'y'; 5_000]] {
        for (line, text) in [
            ("5 1 3", EXAMPLE),
            ("05 01 03", EXAMPLE),
            ("", NOT_A_SIZE),
            ("5 1 3 4", NOT_A_SIZE),
            ("012345678", NOT_A_SIZE),
            ("17 1 3", "refused 1\n"),
        ] {
            let bytes = [line.as_bytes(), b"\n", rest].concat();
            assert_eq!(printed_and_left(pipe_of(&bytes)), (text.to_string(), rest.to_vec()), "a pipe with '{line}'");
            let file = file_of(&format!("first_of_{}", bytes.len()), &bytes);
            assert_eq!(printed_and_left(file), (text.to_string(), rest.to_vec()), "a file with '{line}'");
        }
    }
}

#[test]
fn a_long_line_is_read_to_its_end() {
    for length in [9, 10, 11, 4_095, 4_096, 65_536, 200_000] {
        for byte in [b' ', b'1', b'\0', 0xff] {
            let bytes = [vec![byte; length], b"\n5 1 3\nrest".to_vec()].concat();
            let expected = (NOT_A_SIZE.to_string(), b"5 1 3\nrest".to_vec());
            assert_eq!(printed_and_left(pipe_of(&bytes)), expected, "{length} bytes {byte}");
        }
    }
    assert_eq!(printed(pipe_of(&[b'5'; 100_000])), NOT_A_SIZE);
}

#[test]
fn several_readers_of_one_input_take_a_line_each() {
    let text = printed_by_shell("\"$0\"; \"$0\"; \"$0\"; cat", b"5 1 3\nnot a number\n17 1 3\nlast\n");
    assert_eq!(text, format!("{EXAMPLE}{NOT_A_SIZE}refused 1\nlast\n"));
}
