//! Where the program `plans` writes to: a full disk, a closed pipe, a slow reader, a place that takes a part. It makes its whole output first and
//! writes it in one call: what does not fit is lost, what is taken is a beginning of the output, and no byte of it is another.

use plan_tests::program::{pipe_of, printed, program};
use std::fs::{read, remove_file, OpenOptions};
use std::io::{pipe, PipeReader, PipeWriter, Read};
use std::os::fd::AsRawFd;
use std::os::unix::process::ExitStatusExt;
use std::process::{Command, ExitStatus, Stdio};
use std::thread::{sleep, spawn};
use std::time::Duration;

/// A line whose output, 16,087 bytes, is longer than the pipes and the file here.
const LINE: &[u8] = b"16 11 3\n";

/// The bytes that a pipe here holds.
const FEW: usize = 4_096;

const SET_FLAGS: i32 = 4;
const SET_PIPE_SIZE: i32 = 1_031;
const WRITE_ONLY_NONBLOCKING: i32 = 1 | 0o4000;

extern "C" {
    fn fcntl(file: i32, command: i32, ...) -> i32;
}

/// A pipe that holds few bytes.
fn short_pipe() -> (PipeReader, PipeWriter) {
    let (reader, writer) = pipe().expect("a pipe");
    // SAFETY: a descriptor of this program's own, and a number.
    let holds = unsafe { fcntl(writer.as_raw_fd(), SET_PIPE_SIZE, FEW) };
    assert_eq!(holds as usize, FEW, "no pipe of {FEW} bytes");
    (reader, writer)
}

/// A pipe that nobody reads.
fn closed_pipe() -> PipeWriter {
    pipe().expect("a pipe").1
}

/// How a command ends that reads the line and writes to this place.
fn ends(command: &mut Command, output: impl Into<Stdio>) -> ExitStatus {
    command.stdin(pipe_of(LINE)).stdout(output).status().expect("the program runs")
}

/// The program.
fn plans() -> Command {
    Command::new(program())
}

/// A shell that goes through a command line; in it, `$0` is the program and `$1` a file.
fn shell(line: &str, file: &str) -> Command {
    let mut shell = Command::new("sh");
    shell.args(["-c", line]).arg(program()).arg(file);
    shell
}

/// Fails unless these bytes are a beginning of the output, and neither nothing nor all of it.
fn is_a_part(found: &[u8]) {
    let whole = printed(pipe_of(LINE));
    assert!(!found.is_empty() && found.len() < whole.len(), "{} of {} bytes", found.len(), whole.len());
    assert!(whole.as_bytes().starts_with(found), "{} bytes that are no beginning of the output", found.len());
}

#[test]
fn a_full_disk_takes_nothing_and_the_program_ends() {
    let full = OpenOptions::new().write(true).open("/dev/full").expect("a device that is full");
    assert_eq!(ends(&mut plans(), full).code(), Some(0));
}

#[test]
fn without_a_standard_output_the_program_ends() {
    assert_eq!(ends(&mut shell("exec \"$0\" >&-", ""), Stdio::null()).code(), Some(0));
}

/// The kit's write never raises the signal of a closed pipe.
#[test]
fn a_closed_pipe_takes_nothing_and_the_program_ends() {
    let status = ends(&mut plans(), closed_pipe());
    assert_eq!((status.signal(), status.code()), (None, Some(0)));
}

#[test]
fn a_closed_pipe_whose_signal_is_ignored_takes_nothing_and_the_program_ends() {
    assert_eq!(ends(&mut shell("trap '' PIPE; exec \"$0\"", ""), closed_pipe()).code(), Some(0));
}

#[test]
fn a_slow_reader_gets_every_byte() {
    let (mut reader, writer) = short_pipe();
    let slow = spawn(move || {
        let (mut found, mut some) = (Vec::<u8>::new(), [0; 1_000]);
        loop {
            sleep(Duration::from_millis(1));
            match reader.read(&mut some).expect("the pipe can be read") {
                0 => return found,
                count => found.extend(&some[..count]),
            }
        }
    });
    assert_eq!(ends(&mut plans(), writer).code(), Some(0));
    assert_eq!(slow.join().expect("the reader ends"), printed(pipe_of(LINE)).into_bytes());
}

#[test]
fn a_pipe_that_takes_a_part_gets_a_beginning_of_the_output() {
    let (mut reader, writer) = short_pipe();
    // SAFETY: a descriptor of this program's own, and a number.
    let failed = unsafe { fcntl(writer.as_raw_fd(), SET_FLAGS, WRITE_ONLY_NONBLOCKING) };
    assert_eq!(failed, 0, "no pipe that does not block");
    assert_eq!(ends(&mut plans(), writer).code(), Some(0));
    let mut found = Vec::new();
    reader.read_to_end(&mut found).expect("the pipe can be read");
    is_a_part(&found);
}

#[test]
fn a_file_that_may_not_grow_gets_a_beginning_of_the_output() {
    let path = format!("{}/may_not_grow", env!("CARGO_TARGET_TMPDIR"));
    let limited = "trap '' XFSZ; ulimit -f 8; exec \"$0\" > \"$1\"";
    assert_eq!(ends(&mut shell(limited, &path), Stdio::null()).code(), Some(0));
    let found = read(&path).expect("the file");
    remove_file(&path).expect("the file has a name");
    is_a_part(&found);
}
