//! The program `plans`, run as a shell runs it, and the listing that document 01 asks of it.

use crate::catalogues::{confirm_entries, refusal, with_resolution, Entries};
use crate::check::growth::{grown, Grown};
use crate::check::measures::{pattern, resolution};
use crate::check::runs::runs_of_columns;
use crate::check::words::words_of;
use std::fs::File;
use std::io::{pipe, Read, Write};
use std::os::fd::OwnedFd;
use std::path::PathBuf;
use std::process::{Command, Stdio};
use std::thread;

/// The records that the program lends to a catalogue.
pub const ROOM: usize = 1_024;

/// What a line that gives no size is answered.
pub const NOT_A_SIZE: &str = "not a size\n";

/// A built program. Fails where there is none.
pub(crate) fn built(name: &str) -> PathBuf {
    let path = PathBuf::from(format!("{}/../crates/{name}/out/{name}", env!("CARGO_MANIFEST_DIR")));
    assert!(path.is_file(), "the program is missing: no {}; `rt run` in crates/{name} proves and builds it", path.display());
    path
}

/// The built program `plans`.
pub fn program() -> PathBuf {
    built("plans")
}

/// What a command writes to standard output. Fails unless it ends with status 0 and writes nothing to standard error.
pub(crate) fn output_of(command: &mut Command) -> String {
    let output = command.stderr(Stdio::piped()).output().expect("the program runs");
    assert!(output.status.success(), "the program ended with {}", output.status);
    assert!(output.stderr.is_empty(), "on standard error: {}", String::from_utf8_lossy(&output.stderr));
    String::from_utf8(output.stdout).expect("the program prints text")
}

/// What the program prints with this standard input.
pub fn printed(input: impl Into<Stdio>) -> String {
    output_of(Command::new(program()).stdin(input))
}

/// What a shell prints that runs a command line with these bytes as standard input; in it, `$0` is the program.
pub fn printed_by_shell(line: &str, bytes: &[u8]) -> String {
    output_of(Command::new("sh").args(["-c", line]).arg(program()).stdin(pipe_of(bytes)))
}

/// The reading end of a pipe into which these bytes are written.
pub fn pipe_of(bytes: &[u8]) -> OwnedFd {
    let (reader, mut writer) = pipe().expect("a pipe");
    let bytes = bytes.to_vec();
    thread::spawn(move || writer.write_all(&bytes));
    reader.into()
}

/// What the program prints for the bytes behind a descriptor, and what it leaves there for the next reader.
pub fn printed_and_left(input: OwnedFd) -> (String, Vec<u8>) {
    let shared = input.try_clone().expect("a second descriptor");
    let text = printed(shared);
    let mut left = Vec::new();
    File::from(input).read_to_end(&mut left).expect("the descriptor can be read");
    (text, left)
}

/// An entry's line: place, resolution, columns, counts for lengths 3 to N.
fn entry_line(m: usize, place: usize, entry: &[u32]) -> String {
    let n = entry.len();
    let words = words_of(n, &runs_of_columns(m, entry));
    let after_spaces = |numbers: &[u32]| numbers.iter().map(|number| format!(" {number}")).collect::<String>();
    let counts = pattern(n, &words);
    let counts = after_spaces(counts.get(2..).unwrap_or(&[]));
    format!("{place} res {} columns{} pattern{counts}\n", resolution(n, &words), after_spaces(entry))
}

/// The whole of what the program prints for a size whose catalogue this is.
pub fn listing(n: usize, g: usize, r: usize, catalogue: &Grown) -> String {
    let Grown::All(entries) = catalogue else {
        return "refused 9\n".to_string();
    };
    let header = format!("catalogue {n} {g} {r} entries {}\n", entries.len());
    let lines = entries.iter().enumerate().map(|(i, entry)| entry_line(n - g, i + 1, entry));
    header + &lines.collect::<String>()
}

/// What the program prints for a size that is refused by 1, 2 or 3; none for another.
pub fn refused_line(n: usize, g: usize, r: usize) -> Option<String> {
    Some(refusal(n, g, r)).filter(|&number| number != 0).map(|number| format!("refused {number}\n"))
}

/// The catalogues of m basic factors, for each resolution from 3 to 16 and each number of factors from m to n: N, R and the catalogue.
pub fn every_catalogue(m: usize, n: usize) -> Vec<(usize, usize, Grown)> {
    let mut list = Vec::new();
    let mut catalogues = grown(m, 3, n, ROOM);
    for r in 3..=16 {
        let whole = catalogues.iter().all(|catalogue| matches!(catalogue, Grown::All(_)));
        catalogues = if whole {
            catalogues.iter().map(|catalogue| Grown::All(with_resolution(catalogue.forms(), r))).collect()
        } else {
            grown(m, r, n, ROOM)
        };
        list.extend(catalogues.iter().enumerate().map(|(g, catalogue)| (m + g, r, catalogue.clone())));
    }
    list
}

/// Fails unless the program prints this text, and no more, for this line.
pub fn compare_line(line: &str, expected: &str) {
    let found = printed(pipe_of(format!("{line}\n").as_bytes()));
    let first = found.lines().zip(expected.lines()).find(|(found, expected)| found != expected);
    assert!(
        found == expected,
        "for '{line}': {} lines, not {}; the first that differ: {first:?}",
        found.lines().count(),
        expected.lines().count()
    );
}

/// Compares every size of m basic factors and up to n factors. Returns how many are listed, how many refused by 9, and the entries in all.
pub fn compare_sizes(m: usize, n: usize) -> (usize, usize, usize) {
    let mut counts = (0, 0, 0);
    for (n, r, catalogue) in every_catalogue(m, n) {
        compare_line(&format!("{n} {} {r}", n - m), &listing(n, n - m, r, &catalogue));
        match catalogue {
            Grown::All(entries) => counts = (counts.0 + 1, counts.1, counts.2 + entries.len()),
            Grown::Some(_) => counts.1 += 1,
        }
    }
    counts
}

/// The columns of an entry's line.
fn columns_of(line: &str) -> Vec<u32> {
    let columns = line.split(" columns ").nth(1).and_then(|rest| rest.split(" pattern").next()).expect("a line with columns");
    columns.split(' ').map(|column| column.parse().expect("a column")).collect()
}

/// Fails unless the program lists this many entries, each confirmed by the checking program, and every byte is what such a list asks for.
pub fn confirm_listing(n: usize, m: usize, r: usize, count: usize) {
    let line = format!("{n} {} {r}", n - m);
    let found = printed(pipe_of(line.as_bytes()));
    let entries: Entries = found.lines().skip(1).map(columns_of).collect();
    assert_eq!(entries.len(), count, "for '{line}'");
    confirm_entries(m, r, &entries);
    assert!(found == listing(n, n - m, r, &Grown::All(entries)), "for '{line}'");
}
