//! Makes many calls of every exported function and holds each against the checking program. Prints how many of each were made, and the
//! slowest with its input, as a Markdown table.
//!
//!     reliability --calls 1000000 --seed 1
//!
//! With --record it writes the calls to its output, and the table to standard error. With --replay it makes the calls of such a record, from
//! its input, again, and holds each against the record: this is how a million are made under valgrind, without the checking program.
//!
//!     reliability --calls 1000000 --seed 1 --record | valgrind --error-exitcode=9 reliability --replay
//!
//! With --before 1 or --after 1 besides, every call is told that its lists have one element more than they have, which must be noticed.

use plan_tests::blocks::Wider;
use plan_tests::recorded::{end, record, taken};
use plan_tests::records::{made, records};
use plan_tests::replay::replay;
use plan_tests::trial::Trial;
use plan_tests::valgrind::errors;
use std::io::{stdin, stdout, BufReader, Write};

/// The most characters of an input that are printed.
const INPUT: usize = 100;

/// How many calls are made before those recorded are written.
const AT_ONCE: u64 = 1000;

fn has(name: &str) -> bool {
    std::env::args().any(|word| word == name)
}

/// The number after this word among the arguments.
fn argument(name: &str, otherwise: u64) -> u64 {
    let mut words = std::env::args().skip_while(|word| word != name).skip(1);
    words.next().map_or(otherwise, |word| word.parse().unwrap_or_else(|_| panic!("{name} takes a number, not {word}")))
}

fn write(bytes: &[u8]) {
    let mut to = stdout().lock();
    to.write_all(bytes).and_then(|()| to.flush()).expect("a record can be written");
}

/// Makes the calls. Those that are recorded were all found to be as the checking program has them.
fn make(trial: &mut Trial, calls: u64, recording: bool) {
    if !recording {
        return trial.run(calls);
    }
    record();
    while made() < calls {
        trial.run(calls.min(made() + AT_ONCE));
        write(&taken());
    }
    write(&end(made()));
}

/// The calls and the slowest of each function.
fn table() -> String {
    let mut table = String::from("| function | calls | slowest, microseconds | its input |\n|---|---|---|---|\n");
    for (name, record) in records() {
        let mut input: String = record.input.chars().take(INPUT).collect();
        input.push_str(if input.len() < record.input.len() { " .." } else { "" });
        table.push_str(&format!("| {name} | {} | {:.1} | {input} |\n", record.calls, record.slowest.as_nanos() as f64 / 1000.0));
    }
    table
}

/// Makes the calls of a record again.
fn make_again() {
    let wider = Wider { before: argument("--before", 0) as usize, after: argument("--after", 0) as usize };
    let made = replay(&mut BufReader::new(stdin()), wider);
    let (calls, functions) = (made.iter().sum::<u64>(), made.iter().filter(|&&calls| calls > 0).count());
    let under = errors().map_or("not under valgrind".to_string(), |errors| format!("under valgrind, which found {errors} errors"));
    println!("{calls} calls of {functions} functions made again as recorded, {under}");
}

fn main() {
    if has("--replay") {
        return make_again();
    }
    let recording = has("--record");
    let mut trial = Trial::new(argument("--seed", 1));
    trial.seeking = true;
    make(&mut trial, argument("--calls", 1_000_000), recording);
    if recording {
        eprint!("{}", table());
    } else {
        print!("{}", table());
    }
}
