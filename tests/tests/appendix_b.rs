//! The rows of document 000's Appendix B: recomputed first, and used as tests of the library only where they agree.

use plan_tests::calls::call;
use plan_tests::check::plan::{Given, Plan, Question};
use plan_tests::published::{agrees, columns, disagreeing, printed_pattern, recomputed, rows, Row, BASICS};

fn row(label: &str) -> Row {
    rows().into_iter().find(|row| row.label == label).unwrap_or_else(|| panic!("no row {label}"))
}

#[test]
fn exactly_the_listed_rows_disagree_with_their_recomputed_pattern() {
    let mut found: Vec<String> = rows().into_iter().filter(|row| !agrees(row)).map(|row| row.label).collect();
    let mut listed: Vec<String> = disagreeing().into_iter().map(|entry| entry.label).collect();
    found.sort();
    listed.sort();
    assert_eq!(found, listed, "found to disagree, and listed");
    assert_eq!((rows().len(), listed.len()), (92, 15), "rows, and rows that disagree");
}

#[test]
fn every_disagreeing_row_has_a_reason_and_any_reading_given_for_it_agrees() {
    for entry in disagreeing() {
        assert!(!entry.reason.is_empty(), "{} has no reason", entry.label);
        if let Some((added, counts)) = &entry.reading {
            let printed = printed_pattern(BASICS + added.len(), counts);
            assert_eq!(recomputed(added), printed, "recomputed and printed pattern of {entry:?}");
        }
    }
}

#[test]
fn the_row_that_document_01_names_disagrees_since_25_77_and_84_cancel() {
    let named = row("14-7.named");
    assert_eq!(named.added, [7, 25, 97, 42, 84, 77, 63]);
    assert!(disagreeing().iter().any(|entry| entry.label == named.label), "it is listed");
    assert!(!agrees(&named), "it disagrees");
    assert_eq!(25 ^ 77 ^ 84, 0);
    assert_eq!(recomputed(&named.added)[2], 1, "words of 3 letters");
}

#[test]
fn the_row_that_document_01_names_stands_in_the_text_of_000_with_83_for_84_and_agrees() {
    let printed = row("14-7.4");
    assert_eq!(printed.source, "000:818");
    assert_eq!(printed.added, [7, 25, 97, 42, 83, 77, 63]);
    assert!(agrees(&printed), "it agrees");
}

#[test]
fn the_library_gives_the_printed_pattern_and_resolution_of_every_row_that_agrees() {
    let used: Vec<Row> = rows().into_iter().filter(agrees).collect();
    assert_eq!(used.len(), 77, "rows that agree");
    for row in used {
        let printed = printed_pattern(row.k, row.counts.as_ref().expect("counts"));
        let resolution = printed.iter().position(|&count| count > 0).expect("a word") as u32 + 1;
        let (n, g) = (row.k, row.k - BASICS);
        let by_columns = Given::columns(n, g, &columns(&row.added), 0);
        let plan = Plan::new(&by_columns);
        let by_words = Given::words(n, g, &plan.answer(Question::Words), 0);
        for given in [by_columns, by_words, Given::runs(n, g, &plan.runs)] {
            let found = call(&given, Question::Pattern, row.k);
            assert_eq!((found.answer, found.result(row.k)), (0, printed.clone()), "pattern of {row:?} from {given:?}");
            let found = call(&given, Question::Resolution, 1);
            assert_eq!((found.answer, found.result(1)), (0, vec![resolution]), "resolution of {row:?} from {given:?}");
        }
    }
}
