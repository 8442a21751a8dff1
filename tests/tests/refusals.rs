//! `.ci/refusals.awk`, which says why a wrong program was refused: because a fact no longer holds, or because the proof lost its place. It is run
//! on logs that are made here, beside proof files of each kind.

use plan_tests::repository::root;
use std::fs::{create_dir_all, remove_dir_all, write};
use std::process::Command;

/// A proof that the checker's own walk closes: an answer to a goal.
const COVERED: (&str, &str) = (
    "Answers.antt",
    "use Rattle.c.proofs.f.Goals as goal

pub returns : goal.returns
returns c = law _
",
);

/// A proof by hand: a step of its walk, one whose statement has two lines, and a law beside the walk.
const BY_HAND: (&str, &str) = (
    "Proof.antt",
    "use Rattle.c.proofs.f.Code as code

module _ (n : ℕ) where
  promised : (k : ℕ) → Lowest n k
      → Promised n k
  promised k low = law n k low

  walk : ent 𝓤 (onEntry n) (Wp 𝓤 code.function)
  walk = steps

  goes : (k : ℕ) → k ≤ 8
      → ent 𝓤 (sem n k) (pre k)
  goes k h = steps
",
);

/// Two types that differ, which is what a fact says that does not hold.
const DIFFER: &str = "computed as far as they go, the two types differ only where one has `3`\n  (expected) and the other has `4` (found)";

/// The account that is given of the function f, whose proof file has this name and text, where an error names this and says that.
fn account(test: &str, proof: (&str, &str), named: &str, said: &str) -> String {
    account_of(test, proof, |file| {
        let errors = format!("{file}:7:3: error: `{named}`: {said}\n{file}:9:1: error: `f-spec`: `{named}` was not admitted\n");
        errors + "fn c::f: not proved\nfn c::g: not proved; it calls `c::f`, which is not proved\n"
    })
}

/// The account that is given of the function f, whose proof file has this name and text, by the log that is made for the file's path.
fn account_of(test: &str, (name, text): (&str, &str), made: impl Fn(&str) -> String) -> String {
    let folder = format!("{}/refusals-{test}", env!("CARGO_TARGET_TMPDIR"));
    create_dir_all(format!("{folder}/proofs/f")).expect("a folder");
    let file = format!("{folder}/proofs/f/{name}");
    write(&file, text).expect("a proof");
    let log = format!("{folder}/log");
    write(&log, made(&file)).expect("a log");
    let awk = Command::new("awk").arg("-f").arg(root().join(".ci/refusals.awk")).arg(&log).env("LC_ALL", "C").output().expect("awk runs");
    remove_dir_all(&folder).expect("the folder goes");
    assert!(awk.status.success() && awk.stderr.is_empty(), "awk: {}", String::from_utf8_lossy(&awk.stderr));
    let rows = String::from_utf8(awk.stdout).expect("rows of text");
    let mut rows = rows.lines().map(|row| row.split('\t').collect::<Vec<_>>());
    let first = rows.next().expect("a row for f");
    assert_eq!(first[0], "c::f");
    assert_eq!(rows.next().expect("a row for g")[..2], ["c::g", "callee"]);
    assert_eq!(rows.next(), None);
    format!("{} {} {}", first[1], first[2], first[3])
}

#[test]
fn types_that_differ_are_a_fact() {
    let said = "own returns the two types differ only where one has `3` (expected) and the other has `4` (found)";
    assert_eq!(account("fact", COVERED, "returns", DIFFER), said);
}

#[test]
fn a_need_that_is_not_there_is_a_lost_place() {
    assert!(account("place", COVERED, "returns", "record `Start` has no field `before`").starts_with("place returns "));
}

#[test]
fn types_that_differ_in_a_step_of_a_walk_by_hand_are_a_lost_place() {
    assert!(account("walk", BY_HAND, "walk", DIFFER).starts_with("place walk "));
    assert!(account("goes", BY_HAND, "goes", DIFFER).starts_with("place goes "));
}

#[test]
fn types_that_differ_in_a_law_beside_a_walk_are_a_fact() {
    assert!(account("law", BY_HAND, "promised", DIFFER).starts_with("own promised the two types differ"));
}

#[test]
fn what_a_proof_by_hand_does_not_declare_is_a_lost_place() {
    assert!(account("unknown", BY_HAND, "elsewhere", DIFFER).starts_with("place elsewhere "));
}

/// What the check says of the goals of f that it does not prove: one, and another at which values make it false, where there are such.
fn goals(lost: &str, at: &str) -> String {
    let note = |goal: &str, more: &str| {
        format!("note: src/lib.rt:7:5: it is not proved that what f ensures holds when it returns (`{goal}`){more}\n")
    };
    let refuted = if at.is_empty() { "" } else { "; the facts known there allow values at which this goal is false" };
    let stated = |goal: &str, statement: &str| {
        let asked =
            format!("note: `{goal}` of proofs/f/Answers.antt must prove: {statement}\n  names you can use, by step:\n  | c.args: .x\n");
        asked
            + &if at.is_empty() {
                String::new()
            } else {
                format!("note: `{goal}` of proofs/f/Answers.antt may be false: the known facts allow {at}: help: a\n")
            }
    };
    let first = note("returns-then-x-eq1", refuted);
    let fns = "fn c::f: not proved\nfn c::g: no proof: it calls `c::f`, which is not proved\n";
    format!("{lost}{first}{fns}{}", stated("returns-then-x-eq1", "Rattle.c.specs.M.low c.args.x ≡ 0"))
}

#[test]
fn a_goal_that_nothing_proves_is_a_fact() {
    let said = "own returns-then-x-eq1 no proof of `low x ≡ 0`";
    assert_eq!(account_of("unproved", COVERED, |_| goals("", "")), said);
    let false_at = format!("{said}, false at `x` = `1`");
    assert_eq!(account_of("false", COVERED, |_| goals("", "`c.args.x` = `1`")), false_at);
}

#[test]
fn a_goal_that_nothing_proves_is_a_lost_place_where_an_answer_lost_its_goal() {
    let lost = |file: &str| {
        format!("{file}:3:7: error: `returns-then-x-eq0`: `goal.returns-then-x-eq0`: module `Rattle.c.proofs.f.Goals` has no `returns-then-x-eq0`\n")
    };
    assert!(account_of("renamed", COVERED, |file| goals(&lost(file), "")).starts_with("place returns-then-x-eq0 "));
    assert!(account_of("refuted", COVERED, |file| goals(&lost(file), "`c.args.x` = `1`")).starts_with("place returns-then-x-eq0 "));
}
