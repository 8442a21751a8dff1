//! docs/DEMANDS.md beside the repository: every definition, theorem, contract, wrong program, test, instance and language form that the page
//! names is there, every definition of the paper has a line of the reader's pass, and no other crate defines its name anew.

use std::collections::BTreeSet;
use std::fs;
use std::path::PathBuf;

use plan_tests::repository::{read, root};

fn cells(line: &str) -> Vec<String> {
    line.trim_matches('|').split('|').map(|cell| cell.trim().to_string()).collect()
}

/// The rows of the page's tables that have this many cells, without the heads and the lines below them. Fails if a row has not as many cells
/// as its table.
fn rows(page: &str, count: usize) -> Vec<Vec<String>> {
    let (mut width, mut rows) = (0, Vec::new());
    for (line, next) in page.lines().zip(page.lines().skip(1).chain([""])) {
        if line.starts_with("|---") {
            width = cells(line).len();
        } else if line.starts_with('|') && !next.starts_with("|---") {
            assert_eq!(cells(line).len(), width, "cells of {line}");
            rows.push(cells(line));
        }
    }
    rows.retain(|row| row.len() == count);
    rows
}

/// What stands between backticks.
fn names(cell: &str) -> impl Iterator<Item = &str> {
    cell.split('`').skip(1).step_by(2)
}

/// The files with this ending in the folders crates/*/FOLDER.
fn files(folder: &str, ending: &str) -> Vec<PathBuf> {
    let crates = fs::read_dir(root().join("crates")).expect("the folder crates");
    let folders = crates.map(|entry| entry.expect("a crate").path().join(folder)).filter(|path| path.is_dir());
    let entries = folders.flat_map(|path| fs::read_dir(path).expect("a crate's folder"));
    entries.map(|entry| entry.expect("a file").path()).filter(|path| path.extension().is_some_and(|found| found == ending)).collect()
}

/// The name that a line of a specification or of code declares.
fn declared(line: &str) -> Option<&str> {
    let mut rest = line.trim_start();
    for word in ["#[unsafe(no_mangle)] ", "abbrev ", "unfoldable ", "pub ", "extern \"C\" ", "record ", "data ", "fn ", "struct ", "enum "]
    {
        rest = rest.strip_prefix(word).unwrap_or(rest);
    }
    rest.split([' ', '(', '<', ':', '{']).next().filter(|name| !name.is_empty())
}

/// The names that the specifications of a crate define: laws, and what is defined inside one, left out.
fn definitions(krate: &str) -> BTreeSet<String> {
    let texts = texts(krate, "specs");
    let starts = ["pub record ", "pub data ", "record ", "data ", "abbrev ", "unfoldable "];
    let defining = texts.lines().filter(|line| starts.iter().any(|start| line.starts_with(start)));
    defining.filter_map(declared).map(str::to_string).collect()
}

/// The types that the code of a crate declares.
fn types(krate: &str) -> BTreeSet<String> {
    let texts = texts(krate, "src");
    let starts = ["pub struct ", "pub enum ", "struct ", "enum "];
    let declaring = texts.lines().filter(|line| starts.iter().any(|start| line.trim_start().starts_with(start)));
    declaring.filter_map(declared).map(str::to_string).collect()
}

/// The files of a folder of a crate, one after another.
fn texts(krate: &str, folder: &str) -> String {
    let entries = fs::read_dir(root().join(format!("crates/{krate}/{folder}"))).into_iter().flatten();
    let paths = entries.map(|entry| entry.expect("an entry").path()).filter(|path| path.is_file());
    paths.map(|path| read(&path) + "\n").collect()
}

#[test]
fn every_definition_has_a_line_of_the_readers_pass_and_every_instance_is_proved() {
    let page = read(&root().join("docs/DEMANDS.md"));
    let rows = rows(&page, 4);
    let named = |cell: usize| rows.iter().flat_map(move |row| names(&row[cell])).map(str::to_string).collect::<BTreeSet<_>>();
    let unread: Vec<String> = definitions("regular").difference(&named(0)).cloned().collect();
    assert!(unread.is_empty(), "no line for {unread:?}");
    let bare: Vec<&String> = rows.iter().filter(|row| names(&row[3]).next().is_none()).map(|row| &row[0]).collect();
    assert!(bare.is_empty(), "no instance of {bare:?}");

    let laws: String = files("specs", "antt").iter().chain(&files("proofs", "antt")).map(|path| read(path)).collect();
    let proved: String = ["whiteboard", "instances"].map(|krate| texts(krate, "specs") + &texts(krate, "proofs")).concat();
    let tested = read(&root().join("tests/tests/aberration.rs"));
    let stands = |text: &str, name: &str| text.contains(&format!("\npub {name} :")) || text.contains(&format!("\n  pub {name} :"));
    let missing: Vec<String> = named(3).into_iter().filter(|name| !stands(&proved, name)).collect();
    assert!(missing.is_empty(), "no instance {missing:?}");
    let known: BTreeSet<&str> = laws.lines().filter_map(declared).collect();
    let unknown: Vec<String> = named(0)
        .union(&named(2))
        .filter(|name| !known.contains(name.as_str()) && !tested.contains(&format!("fn {name}()")))
        .cloned()
        .collect();
    assert!(unknown.is_empty(), "not in the repository: {unknown:?}");
    assert!(named(3).len() > 100, "only {} instances on the page", named(3).len());
}

#[test]
fn no_definition_or_type_of_another_crate_has_the_name_of_a_definition_of_the_paper() {
    let own = definitions("regular");
    let crates = fs::read_dir(root().join("crates")).expect("the folder crates");
    let (mut seen, mut twice) = (0, Vec::new());
    for krate in crates.map(|entry| entry.expect("a crate").file_name().into_string().expect("a name")).filter(|krate| krate != "regular") {
        let others: BTreeSet<String> = definitions(&krate).union(&types(&krate)).cloned().collect();
        seen += others.len();
        twice.extend(others.intersection(&own).map(|name| format!("{name} in {krate}")));
    }
    assert!(twice.is_empty(), "defined anew: {twice:?}");
    assert!(own.len() > 100 && seen > 200, "only {} definitions of the paper and {seen} others", own.len());
}

#[test]
fn every_language_form_stands_where_the_page_says() {
    let page = read(&root().join("docs/DEMANDS.md"));
    let rows = rows(&page, 2);
    assert_eq!(rows.len(), 9, "the paper's language forms");
    for row in rows {
        let (places, named): (Vec<&str>, Vec<&str>) = names(&row[1]).partition(|name| name.contains('/'));
        assert!(places.iter().all(|place| root().join(place).exists()), "one of {places:?} is not there");
        let code: String = places.iter().filter_map(|place| place.strip_prefix("crates/")).map(|krate| texts(krate, "src")).collect();
        let known: BTreeSet<&str> = code.lines().filter_map(declared).collect();
        assert!(named.iter().all(|name| known.contains(name)), "one of {named:?} is not in {places:?}");
        assert!(!places.is_empty() || row[0].ends_with("(02)"), "nowhere: {}", row[0]);
    }
}

#[test]
fn every_name_on_the_page_of_demands_stands_in_the_repository() {
    let page = read(&root().join("docs/DEMANDS.md"));
    let sources = files("specs", "antt").into_iter().chain(files("proofs", "antt")).chain(files("src", "rt"));
    let texts: Vec<String> = sources.map(|path| read(&path)).collect();
    let known: BTreeSet<&str> = texts.iter().flat_map(|text| text.lines()).filter_map(declared).collect();
    let contracts = read(&root().join("docs/CONTRACTS.md"));
    let mut missing = Vec::new();
    let mut found = 0;
    for row in rows(&page, 5) {
        let mut see = |there: bool, name: &str| if there { found += 1 } else { missing.push(format!("{name} ({})", row[0])) };
        for name in names(&row[1]).chain(names(&row[2])) {
            see(known.contains(name), name);
        }
        for name in names(&row[3]) {
            let (krate, edit) = name.split_once('/').unwrap_or_else(|| panic!("{name} is not crate/edit"));
            let (edit, made) = edit.split_once(':').map_or((edit, None), |(edit, function)| (edit, Some(function)));
            see(root().join(format!("crates/{krate}/must-fail/{edit}.edit")).is_file(), name);
            see(made.is_none_or(|function| contracts.contains(&format!("| `{krate}/{edit}` | `{function}` |"))), name);
        }
        for name in names(&row[4]) {
            let (file, test) = name.split_once("::").unwrap_or_else(|| panic!("{name} is not file::test"));
            let path = root().join(format!("tests/tests/{file}.rs"));
            see(path.is_file() && read(&path).contains(&format!("#[test]\nfn {test}() ")), name);
        }
    }
    assert!(missing.is_empty(), "not in the repository: {missing:#?}");
    assert!(found > 200, "only {found} names on the page");
}
