//! The C header beside the static library's exported functions, their source, and the crate that calls them from Rust. One version for all.

use std::collections::{BTreeMap, BTreeSet};
use std::process::Command;

const HEADER: &str = include_str!("../../include/planner.h");
const SOURCE: &str = include_str!("../../crates/planner/src/lib.rt");
const SOURCE_TYPES: &str = include_str!("../../crates/regular/src/lib.rt");
const CRATE: &str = include_str!("../planner/src/lib.rs");
const EXPORTED: &str = include_str!("../src/exported.rs");
const LIBRARY: &str = concat!(env!("CARGO_MANIFEST_DIR"), "/../crates/planner/out/libplanner.a");

/// The functions of this library that the lines have: names that begin with `plan_`, up to an opening parenthesis.
fn functions<'a>(lines: impl Iterator<Item = &'a str>) -> BTreeSet<String> {
    let calls = lines.filter_map(|line| line.split_once('(').and_then(|(before, _)| before.rsplit(' ').next()));
    calls.filter(|name| name.starts_with("plan_")).map(str::to_string).collect()
}

/// Those that the header declares: its lines outside comments.
fn of_the_header() -> BTreeSet<String> {
    functions(HEADER.lines().filter(|line| line.starts_with("uint") || line.starts_with("struct")))
}

/// The names that nm lists of the library under this option.
fn symbols(option: &str) -> BTreeSet<String> {
    let listed = Command::new("nm").args([option, "--extern-only", "--format=posix", LIBRARY]).output().expect("nm runs");
    let text = String::from_utf8(listed.stdout).expect("nm writes text");
    text.lines().filter_map(|line| line.split_once(' ')).map(|(name, _)| name.to_string()).collect()
}

#[test]
fn the_headers_version_is_that_of_the_crate_of_both_lock_files_and_of_the_newest_changes() {
    let after = |text: &'static str, before: &str| {
        let (_, rest) = text.split_once(before).unwrap_or_else(|| panic!("no {before:?}"));
        rest.split(['"', '\n']).next().expect("a version")
    };
    let version = after(HEADER, "#define PLANNER_VERSION \"");
    assert!(version.split('.').all(|part| part.parse::<u32>().is_ok()) && version.split('.').count() == 3, "{version}");
    let locked = "name = \"planner\"\nversion = \"";
    let crate_file = include_str!("../planner/Cargo.toml");
    let locks = [include_str!("../Cargo.lock"), include_str!("../../bench/Cargo.lock")];
    assert_eq!(after(crate_file, locked), version, "the crate");
    assert_eq!(locks.map(|lock| after(lock, locked)), [version; 2], "the lock files of the tests and of the benchmarks");
    assert_eq!(after(include_str!("../../CHANGES.md"), "\n## "), version, "the newest of CHANGES.md");
}

#[test]
fn the_header_declares_exactly_the_functions_that_the_library_exports() {
    let exported = symbols("--defined-only");
    assert!(exported.len() > 20, "{exported:?}");
    assert_eq!(of_the_header(), exported, "in the header, and in the library");
}

#[test]
fn the_library_needs_nothing_but_memcpy_and_memset() {
    assert_eq!(symbols("--undefined-only"), ["memcpy", "memset"].map(String::from).into());
}

#[test]
fn the_crate_has_exactly_the_functions_that_the_header_declares() {
    assert_eq!(of_the_header(), functions(CRATE.lines().filter(|line| line.starts_with("pub fn "))), "in the header, and in the crate");
}

#[test]
fn every_function_is_called_with_guarded_lists() {
    assert_eq!(of_the_header(), functions(EXPORTED.lines()), "in the header, and with guarded lists");
}

/// A number as C or Rust writes it.
fn number(text: &str) -> u32 {
    let digits = text.trim_start_matches("UINT32_C(0x").trim_start_matches("0x").trim_end_matches([')', ';']);
    u32::from_str_radix(&digits.replace('_', ""), 16).unwrap_or_else(|_| panic!("no number: {text}"))
}

#[test]
fn the_crates_constants_are_the_headers() {
    let defined = |name: &str| HEADER.lines().find_map(|line| line.strip_prefix(&format!("#define {name} "))).map(number);
    let constants: Vec<&str> = CRATE.lines().filter_map(|line| line.strip_prefix("pub const ")).collect();
    assert_eq!(constants.len(), 4);
    for constant in constants {
        let (name, value) = constant.split_once(": u32 = ").expect("a constant of 32 bits");
        assert_eq!(defined(name), Some(number(value)), "{name}");
    }
}

/// What each function takes and answers, as Rust writes it: a list with its count is a slice, a struct stands by its fields.
type Signatures = BTreeMap<String, (Vec<String>, String)>;

/// The signatures that a text in Rattle or Rust declares after these words.
fn signatures(text: &str, start: &str, types: &str) -> Signatures {
    let trimmed = |list: &str| list.split(',').map(str::trim).filter(|part| !part.is_empty()).map(str::to_string).collect::<Vec<_>>();
    let answered = |name: &str| match types.split_once(&format!("pub struct {name} {{")) {
        Some((_, rest)) => trimmed(&rest[..rest.find('}').expect("a struct's end")].replace("pub ", "")).join(", "),
        None => name.to_string(),
    };
    let signature = |part: &str| {
        let (name, rest) = part.split_once('(').expect("parameters");
        let (taken, rest) = rest.split_once(") -> ").expect("an answer");
        (name.to_string(), (trimmed(taken), answered(rest.split_whitespace().next().expect("an answer"))))
    };
    text.split(start).skip(1).map(signature).collect()
}

/// A parameter or a field of the header: a pointer is a list.
fn of_c(text: &str) -> String {
    let (kind, name) = text.trim().rsplit_once(' ').expect("a type and a name");
    let kind = kind.replace("size_t", "usize").replace("uint", "u").replace("_t", "");
    match (name.strip_prefix('*'), kind.strip_prefix("const ")) {
        (None, _) => format!("{name}: {kind}"),
        (Some(list), Some(element)) => format!("{list}: &[{element}]"),
        (Some(list), None) => format!("{list}: &mut [{kind}]"),
    }
}

/// What a function of the header takes, each list with the count after it.
fn taken(parameters: &str) -> Vec<String> {
    let mut all = parameters.split(',').map(of_c);
    let mut taken = Vec::new();
    while let Some(parameter) = all.next() {
        let count = if parameter.contains('&') { all.next() } else { Some(": usize".to_string()) };
        assert!(count.is_some_and(|count| count.ends_with(": usize")), "{parameter} has no count");
        taken.push(parameter);
    }
    taken
}

/// The signatures of the header, which is read without its comments and directives.
fn signatures_of_the_header() -> Signatures {
    let bare: String = HEADER.split("/*").map(|part| part.split_once("*/").map_or(part, |(_, rest)| rest)).collect();
    let lines: Vec<&str> = bare.lines().filter(|line| !line.starts_with('#')).collect();
    let text = lines.join("\n");
    let answered = |name: &str| match text.split_once(&format!("struct {name} {{")) {
        Some((_, rest)) => {
            let fields = rest[..rest.find('}').expect("a struct's end")].split(';').filter(|field| !field.trim().is_empty());
            fields.map(of_c).collect::<Vec<_>>().join(", ")
        }
        None => name.replace("uint", "u").replace("_t", ""),
    };
    let signature = |statement: &str| {
        let (before, rest) = statement.split_once('(')?;
        let mut words = before.split_whitespace().rev();
        let (name, answer) = (words.next()?, words.next()?);
        Some((name.to_string(), (taken(rest.trim_end_matches(')')), answered(answer))))
    };
    text.split(';').filter_map(signature).collect()
}

#[test]
fn the_header_the_source_and_the_crate_have_the_same_parameters_and_answers() {
    let header = signatures_of_the_header();
    assert_eq!(header, signatures(SOURCE, "pub extern \"C\" fn ", SOURCE_TYPES), "in the header, and in the source");
    assert_eq!(header, signatures(CRATE, "\npub fn ", CRATE), "in the header, and in the crate");
}

/// The function that takes no plans: the book that it reads has their N and G.
const READER: &str = "plan_read_book";

#[test]
fn every_function_on_plans_takes_n_and_g() {
    let signatures = signatures_of_the_header();
    assert_eq!(signatures.keys().cloned().collect::<BTreeSet<_>>(), of_the_header());
    for (name, (taken, _)) in signatures {
        assert_eq!(taken.starts_with(&["n: usize", "g: usize"].map(String::from)), name != READER, "{name} takes {taken:?}");
    }
}
