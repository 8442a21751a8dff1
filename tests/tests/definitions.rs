//! The specifications and proofs beside each other: every definition and law is used or stated on a page, every name that a file brings in stands in
//! it, no two files define one public name, and no line is too wide to read.

use std::collections::{BTreeMap, BTreeSet};
use std::path::{Path, PathBuf};

use plan_tests::repository::{read, root};

/// Every file below crates/ with one of these endings, without those that rt has made.
fn sources(endings: &[&str]) -> Vec<PathBuf> {
    fn below(folder: &Path, endings: &[&str], found: &mut Vec<PathBuf>) {
        for entry in std::fs::read_dir(folder).expect("a folder") {
            let path = entry.expect("an entry").path();
            if path.is_dir() {
                if !path.ends_with("out") {
                    below(&path, endings, found);
                }
            } else if path.extension().is_some_and(|end| endings.iter().any(|&ending| end == ending)) {
                found.push(path);
            }
        }
    }
    let mut found = Vec::new();
    below(&root().join("crates"), endings, &mut found);
    found.sort();
    found
}

/// A line without its comment.
fn bare(line: &str) -> &str {
    let comment = line.match_indices("--").find(|&(at, _)| at == 0 || line[..at].ends_with(' '));
    let code = line.find("//").filter(|&at| at == 0 || line[..at].ends_with(' '));
    let end = comment.map(|(at, _)| at).into_iter().chain(code).min().unwrap_or(line.len());
    &line[..end]
}

fn is_import(line: &str) -> bool {
    line.starts_with("use ") || line.trim_start().starts_with("ghost use ")
}

/// The words of a line: a field's point, brackets and commas end one.
fn words(line: &str) -> impl Iterator<Item = &str> {
    line.split(|c: char| c.is_whitespace() || "(){}[],;.\"`λ←⌜⌝".contains(c)).filter(|word| !word.is_empty())
}

/// A file's lines in paragraphs, without comments and imports.
fn paragraphs(text: &str) -> Vec<Vec<&str>> {
    let lines: Vec<&str> = text.lines().collect();
    let blocks = lines.split(|line| line.trim().is_empty());
    blocks.map(|block| block.iter().copied().filter(|line| !is_import(line)).map(bare).collect()).collect()
}

/// The name that a line declares, if it declares one.
fn declared(line: &str) -> Option<&str> {
    let mut rest = line.trim_start();
    let mut kind = false;
    for word in ["abbrev ", "unfoldable ", "pub ", "record ", "data "] {
        kind |= matches!(word, "record " | "data ") && rest.starts_with(word);
        rest = rest.strip_prefix(word).unwrap_or(rest);
    }
    let mut parts = rest.split(' ');
    let name = parts.next().filter(|name| !name.is_empty() && !name.starts_with('_') && !name.contains(['(', '=', ',', '{']))?;
    (kind || parts.next() == Some(":")).then_some(name)
}

/// Whether a line is an answer to a goal, an invariant or a measure, which the checker asks for by that name, or the whole of a proof by hand.
fn asked(path: &Path, line: &str, name: &str) -> bool {
    let by_hand = path.ends_with("Proof.antt") && name.ends_with("spec");
    by_hand || line.split_once(" : ").is_some_and(|(_, kind)| kind.trim().strip_prefix("goal.") == Some(name))
}

/// The names that the pages of the repository speak of.
fn named() -> BTreeSet<String> {
    let pages = ["README.md", "docs/DEMANDS.md", "docs/DECISIONS.md"].map(|page| read(&root().join(page)));
    pages.iter().flat_map(|page| page.split('`').skip(1).step_by(2)).map(str::to_string).collect()
}

/// Whether a file holds instances or examples, which nothing else need use.
fn stands_alone(path: &Path) -> bool {
    ["crates/whiteboard/", "crates/instances/", "Examples.antt"].iter().any(|part| path.to_string_lossy().contains(part))
}

#[test]
fn every_definition_and_law_is_used_or_named_on_a_page() {
    let texts: Vec<(PathBuf, String)> = sources(&["antt", "rt"]).into_iter().map(|path| (path.clone(), read(&path))).collect();
    let blocks: Vec<(&Path, Vec<&str>)> =
        texts.iter().flat_map(|(path, text)| paragraphs(text).into_iter().map(move |block| (path.as_path(), block))).collect();
    let mut places: BTreeMap<&str, BTreeSet<usize>> = BTreeMap::new();
    for (at, (_, block)) in blocks.iter().enumerate() {
        for word in block.iter().flat_map(|line| words(line)) {
            places.entry(word).or_default().insert(at);
        }
    }
    let named = named();
    let mut dead = Vec::new();
    let mut seen = 0;
    for (at, (path, block)) in
        blocks.iter().enumerate().filter(|(_, (path, _))| path.extension().is_some_and(|end| end == "antt") && !stands_alone(path))
    {
        let own = block.iter().take_while(|line| line.trim() != "where");
        for (line, name) in own.filter_map(|line| declared(line).map(|name| (line, name))) {
            seen += 1;
            let elsewhere = places.get(name).is_some_and(|found| found.iter().any(|&place| place != at));
            if !elsewhere && !asked(path, line, name) && !named.contains(name) {
                dead.push(format!("{name} in {}", path.display()));
            }
        }
    }
    assert!(dead.is_empty(), "used by nothing: {dead:#?}");
    assert!(seen > 5_000, "only {seen} definitions and laws");
}

/// The names that an import brings in, each by the name that it has in the file.
fn brought(line: &str) -> Vec<&str> {
    let inside = line.split_once(".{").and_then(|(_, rest)| rest.split_once('}')).map_or("", |(inside, _)| inside);
    inside.split(',').map(|item| item.rsplit(" as ").next().unwrap_or(item).trim()).filter(|name| !name.is_empty()).collect()
}

#[test]
fn every_name_that_a_file_brings_in_stands_in_it() {
    let mut idle = Vec::new();
    let mut seen = 0;
    for path in sources(&["antt", "rt"]) {
        let text = read(&path);
        let body: Vec<&str> = text.lines().filter(|line| !is_import(line)).map(bare).collect();
        let found: BTreeSet<&str> = body.iter().flat_map(|line| words(line)).collect();
        let stands = |name: &str| {
            let infix = name.contains('◌') && name.split('◌').filter(|part| !part.is_empty()).all(|part| found.contains(part));
            found.contains(name) || infix || name == "[]" && body.iter().any(|line| line.contains("[]"))
        };
        for name in text.lines().filter(|line| is_import(line)).flat_map(|line| brought(line)) {
            seen += 1;
            // a symbol is brought in under its own name and stands under another
            if !stands(name) && !name.starts_with('#') {
                idle.push(format!("{name} in {}", path.display()));
            }
        }
    }
    assert!(idle.is_empty(), "brought in for nothing: {idle:#?}");
    assert!(seen > 9_000, "only {seen} names brought in");
}

/// The name of a public definition (not of a law), if the line begins one.
fn defined(line: &str) -> Option<&str> {
    let line = line.trim_start();
    let kinds = ["pub record ", "pub data ", "abbrev pub ", "unfoldable pub "];
    kinds.iter().find_map(|kind| line.strip_prefix(kind)).and_then(|rest| rest.split(' ').next())
}

#[test]
fn no_two_files_define_one_public_name() {
    let mut files: BTreeMap<String, BTreeSet<PathBuf>> = BTreeMap::new();
    for path in sources(&["antt"]).into_iter().filter(|path| path.to_string_lossy().contains("/specs/")) {
        for name in read(&path).lines().filter_map(defined) {
            files.entry(name.to_string()).or_default().insert(path.clone());
        }
    }
    let twice: Vec<_> = files.iter().filter(|(_, places)| places.len() > 1).collect();
    assert!(twice.is_empty(), "one name in two files: {twice:#?}");
    assert!(files.len() > 500, "only {} definitions", files.len());
}

#[test]
fn lines_of_specifications_proofs_and_code_are_under_160_characters() {
    let mut wide = Vec::new();
    for path in sources(&["antt", "rt"]) {
        let text = read(&path);
        wide.extend(
            text.lines()
                .enumerate()
                .filter(|(_, line)| line.chars().count() >= 160)
                .map(|(at, _)| format!("{}:{}", path.display(), at + 1)),
        );
    }
    assert!(wide.is_empty(), "160 characters or more: {wide:#?}");
}
