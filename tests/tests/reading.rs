//! The reader of books: the request's examples, every check in its order, every small catalogue there and back, and damaged books.

use plan_tests::book_samples::{drawn, some_of};
use plan_tests::books::joined;
use plan_tests::catalogues::{entries, every_smallest_form, with_resolution, Entries};
use plan_tests::check::book::{book, header, MOST_PLANS};
use plan_tests::check::plan::stride;
use plan_tests::check::refusals::of_sizes;
use plan_tests::guarded::plan_write_book;
use plan_tests::random::Random;
use plan_tests::reading::{compare_read, compare_refused, compare_taken};

/// The numbers that a reader may answer.
const ANSWERS: [u8; 8] = [0, 1, 2, 3, 8, 10, 11, 12];

/// Places for more entries than the small books have, and for fewer than a damaged header may count.
const PLENTY: usize = 600;

/// The book of the catalogue 4 1 3.
const TWO_ENTRIES: &str = "0104010302002401020304440100000024010204074400000100";

fn hex(text: &str) -> Vec<u8> {
    (0..text.len() / 2).map(|i| u8::from_str_radix(&text[2 * i..2 * i + 2], 16).expect("two digits")).collect()
}

/// How often each number was answered.
#[derive(Default, Debug)]
struct Seen([usize; 13]);

impl Seen {
    fn add(&mut self, number: u8) {
        self.0[usize::from(number)] += 1;
    }

    /// Fails unless each of these was answered so often.
    fn assert_reached(&self, numbers: &[u8], times: usize) {
        assert!(numbers.iter().all(|&number| self.0[usize::from(number)] >= times), "{numbers:?} not {times} times each: {:?}", self.0);
    }
}

/// Every catalogue of up to so many factors, for every R up to one above N: N, G, R and the entries.
fn every_catalogue(most: usize) -> Vec<([usize; 3], Entries)> {
    let mut catalogues = Vec::new();
    for n in 1..=most {
        for m in 1..=n.min(7) {
            let forms = every_smallest_form(n, m);
            catalogues.extend((3..=(n + 1).max(3)).map(|r| ([n, n - m, r], with_resolution(&forms, r))));
        }
    }
    catalogues
}

#[test]
fn the_examples_of_the_request() {
    let two = hex(TWO_ENTRIES);
    compare_taken(&two, 12, [4, 1, 3], &[1, 2, 3, 4, 0, 0, 1, 2, 4, 7, 0, 0]);
    compare_refused(&two, 11, 8);
    compare_refused(&two, 8, 8);
    compare_refused(&two, 4, 8);
    compare_refused(&[&two[..], &[0]].concat(), 12, 10);
    compare_refused(&hex("0111010300"), 12, 10);
    compare_refused(&hex("011101030000"), 12, 1);
    compare_refused(&hex("0104010301002502"), 12, 11);
    compare_refused(&hex("01040104010024010203044401000000"), 12, 12);
    compare_refused(&[], 12, 10);
}

#[test]
fn the_first_byte_is_the_kind_of_the_header() {
    for kind in 0..=255 {
        let number = if kind == 0x01 { 10 } else { 11 };
        for more in 0..5 {
            compare_refused(&[&[kind][..], &[0; 4][..more]].concat(), 12, number);
        }
        let mut book = hex(TWO_ENTRIES);
        book[0] = kind;
        assert_eq!(compare_read(&book, 12), if kind == 0x01 { 0 } else { 11 });
    }
}

#[test]
fn every_size_of_a_header_is_taken_or_refused_by_the_lowest_of_1_to_3() {
    let values: Vec<usize> = (0..=18).chain([128, 255]).collect();
    for &n in &values {
        for &g in &values {
            for &r in &values {
                let book = header(n, g, r, 0);
                match of_sizes(n, g) {
                    0 if (3..=16).contains(&r) => compare_taken(&book, 3, [n, g, r], &[]),
                    0 => compare_refused(&book, 3, 3),
                    number => compare_refused(&book, 3, number),
                }
                compare_refused(&book[..5], 3, 10);
            }
        }
    }
}

#[test]
fn the_list_is_measured_by_the_header_before_any_entry_is_read() {
    for (n, g) in [(1, 0), (2, 0), (5, 1), (16, 9)] {
        for count in [1, 2, 255, 256, 257, MOST_PLANS] {
            for rest in [&[][..], &[0x20], &[0x20 + n as u8]] {
                let book = [&header(n, g, 3, count), rest].concat();
                compare_refused(&book, count * n, 8);
                compare_refused(&book, count * stride(n) - 1, 8);
                compare_refused(&book, count * stride(n), if rest == [0x20] { 11 } else { 10 });
            }
        }
    }
}

/// The book of 4 1 3 with other bytes from some place on.
fn with_end(place: usize, end: &str) -> Vec<u8> {
    [&hex(TWO_ENTRIES)[..place], &hex(end)].concat()
}

#[test]
fn each_record_meets_its_kind_then_its_end_then_its_truth() {
    let refused = |place: usize, end: &str, number: u8| compare_refused(&with_end(place, end), 12, number);
    for entry in [6, 16] {
        let pattern = entry + 5;
        for (place, kinds) in [(entry, ["44", "25", "04", "01", "00"]), (pattern, ["24", "45", "04", "01", "00"])] {
            refused(place, "", 10);
            kinds.iter().for_each(|kind| refused(place, kind, 11));
        }
        for body in ["", "ff", "ffff", "ffffff"] {
            refused(entry + 1, body, 10);
            refused(pattern + 1, body, 10);
        }
        refused(entry + 1, "ffffffff", 12);
        refused(entry + 1, "0102040844", 12);
        refused(entry + 1, "0102040800", 12);
        refused(pattern + 1, "ffffffff", 12);
        refused(pattern + 1, "00000000", 12);
    }
    refused(26, "24", 10);
    refused(26, "00", 10);
}

#[test]
fn columns_that_no_catalogue_has_are_untrue_and_not_5_to_7() {
    let untrue = [
        ("a column 0", "00010204"),
        ("a column above 2^M - 1", "01020408"),
        ("a column of 8 bits", "010203ff"),
        ("a column twice", "01020404"),
        ("rank below M", "01020303"),
        ("not rising", "02010304"),
        ("rising, but not the smallest", "01020405"),
        ("rising, but not the smallest", "01020406"),
    ];
    for (fault, columns) in untrue {
        let mut book = header(4, 1, 3, 1);
        book.extend(hex(&format!("24{columns}4401000000")));
        assert_eq!(compare_read(&book, 6), 12, "{fault}");
    }
}

#[test]
fn below_3_factors_a_pattern_is_its_kind_byte() {
    for r in 3..=16 {
        let (one, two) = ([0x01, 1, 0, r, 1, 0, 0x21, 1, 0x41], [0x01, 2, 0, r, 1, 0, 0x22, 1, 2, 0x42]);
        compare_taken(&one, 3, [1, 0, r.into()], &[1, 0, 0]);
        compare_taken(&two, 4, [2, 0, r.into()], &[1, 2, 0, 0]);
        for longer in [[&one[..], &[0, 0]].concat(), [&two[..], &[0]].concat(), [&two[..], &[0x22]].concat()] {
            compare_refused(&longer, 4, 10);
        }
    }
    compare_refused(&[0x01, 1, 0, 3, 1, 0, 0x21, 1, 0x42], 3, 11);
    compare_refused(&[0x01, 1, 0, 3, 1, 0, 0x21, 2, 0x41], 3, 12);
    compare_refused(&[0x01, 1, 0, 3, 2, 0, 0x21, 1, 0x41, 0x21, 1, 0x41], 6, 12);
    compare_refused(&[0x01, 2, 0, 3, 1, 0, 0x22, 2, 1, 0x42], 4, 12);
}

#[test]
fn every_catalogue_of_up_to_8_factors_comes_back_and_is_written_to_the_same_bytes() {
    for ([n, g, r], entries) in every_catalogue(8) {
        let (list, book) = (joined(&entries), book(n, g, r, &entries));
        let mut written = vec![0; book.len()];
        assert_eq!(plan_write_book(n, g, r, &list, &mut written).number, 0);
        assert!(written == book, "the book of {n} {g} {r}");
        for more in [0, 1, n, 100] {
            compare_taken(&book, list.len() + more, [n, g, r], &list);
        }
        (0..list.len()).for_each(|places| compare_refused(&book, places, 8));
    }
}

#[test]
fn every_book_that_is_cut_off_or_goes_on_is_refused_by_10() {
    for ([n, g, r], entries) in every_catalogue(7) {
        let book = book(n, g, r, &entries);
        (0..book.len()).for_each(|count| compare_refused(&book[..count], entries.len() * stride(n), 10));
        for byte in [0x00, 0x01, 0x20 + n as u8, 0x40 + n as u8, 0xff] {
            compare_refused(&[&book[..], &[byte]].concat(), entries.len() * stride(n), 10);
        }
        let again = [&book[..], &book[6..]].concat();
        assert_eq!(compare_read(&again, PLENTY), if entries.is_empty() { 0 } else { 10 });
    }
}

#[test]
fn every_change_of_one_byte_of_a_small_book() {
    let sizes = [[1, 0, 3], [2, 0, 16], [3, 1, 3], [4, 1, 3], [5, 1, 3], [5, 2, 3], [6, 2, 4], [7, 4, 3]];
    let mut seen = Seen::default();
    for [n, g, r] in sizes {
        let whole = book(n, g, r, &with_resolution(&every_smallest_form(n, n - g), r));
        for place in 0..whole.len() {
            for byte in (0..=255).filter(|&byte| byte != whole[place]) {
                let mut book = whole.clone();
                book[place] = byte;
                seen.add(compare_read(&book, PLENTY));
            }
        }
    }
    seen.assert_reached(&ANSWERS, 20);
}

#[test]
fn of_two_changed_bytes_the_first_check_that_fails_answers() {
    let whole = hex(TWO_ENTRIES);
    let values = [0x00, 0x01, 0x02, 0x03, 0x04, 0x07, 0x08, 0x11, 0x24, 0x44, 0xff];
    let mut seen = Seen::default();
    for second in 1..whole.len() {
        for first in 0..second {
            for changed in values.iter().flat_map(|&one| values.map(|other| [one, other])) {
                let mut book = whole.clone();
                [book[first], book[second]] = changed;
                seen.add(compare_read(&book, 18));
            }
        }
    }
    seen.assert_reached(&ANSWERS, 20);
}

#[test]
fn entries_in_any_order_are_taken_exactly_if_they_rise_strictly() {
    let mut seen = Seen::default();
    for ([n, g, r], entries) in [[4, 1, 3], [5, 1, 3], [6, 2, 3], [6, 1, 3]].map(|[n, g, r]| ([n, g, r], every_smallest_form(n, n - g))) {
        let count = entries.len();
        for code in 0..count * count * count {
            let places = [code % count, code / count % count, code / count / count];
            let list: Entries = places.iter().map(|&place| entries[place].clone()).collect();
            let book = book(n, g, r, &list);
            if places[0] < places[1] && places[1] < places[2] {
                compare_taken(&book, 3 * stride(n), [n, g, r], &joined(&list));
            } else {
                compare_refused(&book, 3 * stride(n), 12);
            }
            seen.add(compare_read(&book, 3 * stride(n) + 1));
        }
    }
    seen.assert_reached(&[0, 12], 5);
}

#[test]
fn every_list_of_columns_is_taken_exactly_if_the_catalogue_has_it() {
    let mut seen = Seen::default();
    for (n, m) in [(1, 1), (2, 1), (2, 2), (3, 1), (3, 2), (3, 3), (4, 1), (4, 2), (4, 3), (5, 2), (5, 3)] {
        let forms = every_smallest_form(n, m);
        let values: usize = (1 << m) + 1;
        for code in 0..values.pow(n as u32) {
            let columns: Vec<u32> = (0..n).map(|f| (code / values.pow(f as u32) % values) as u32).collect();
            let list = [columns];
            let book = book(n, n - m, 3, &list);
            if forms.contains(&list[0]) {
                compare_taken(&book, stride(n) + 1, [n, n - m, 3], &joined(&list));
                seen.add(0);
            } else {
                compare_refused(&book, stride(n) + 1, 12);
                seen.add(12);
            }
        }
    }
    seen.assert_reached(&[0], 7);
}

#[test]
fn an_entry_is_taken_for_every_r_up_to_its_resolution_and_a_full_factorial_for_all() {
    for (n, m) in [(3, 3), (4, 3), (5, 4), (6, 4), (7, 7), (8, 7), (8, 4)] {
        for form in every_smallest_form(n, m) {
            for r in 3..=16 {
                let number = if with_resolution(&[form.clone()], r).is_empty() { 12 } else { 0 };
                assert_eq!(compare_read(&book(n, n - m, r, &[form.clone()]), stride(n)), number, "{form:?} for R {r}");
            }
        }
    }
}

/// Larger sizes, each with the first entries of its catalogue.
fn larger_catalogues() -> Vec<([usize; 3], Entries)> {
    const ROOM: usize = 400;
    let sizes = [[9, 3, 3], [9, 2, 4], [10, 4, 3], [11, 4, 4], [12, 8, 3], [13, 6, 3], [14, 7, 4], [15, 11, 3], [16, 9, 3], [16, 10, 4]];
    sizes.map(|[n, g, r]| ([n, g, r], entries(n, g, r, ROOM).1)).to_vec()
}

#[test]
fn some_entries_of_larger_catalogues_come_back_and_are_written_to_the_same_bytes() {
    let mut random = Random::new(0x3c6e);
    for ([n, g, r], entries) in larger_catalogues() {
        for _ in 0..10 {
            let some = some_of(&mut random, &entries, 4);
            let (list, mut written) = (joined(&some), vec![0; book(n, g, r, &some).len()]);
            assert_eq!(plan_write_book(n, g, r, &list, &mut written).number, 0);
            compare_taken(&written, list.len() + 7, [n, g, r], &list);
            assert_eq!(compare_read(&written, list.len()), 0);
        }
    }
}

#[test]
fn damaged_books_of_every_size() {
    const TIMES: usize = 40;
    let mut random = Random::new(0xbb67);
    let mut seen = Seen::default();
    for ([n, g, r], entries) in [every_catalogue(7), larger_catalogues()].concat() {
        for _ in 0..TIMES {
            let some = some_of(&mut random, &entries, 4);
            let book = drawn(&mut random, n, n - g, r, &some);
            seen.add(compare_read(&book, PLENTY));
            seen.add(compare_read(&book, some.len() * stride(n)));
        }
    }
    seen.assert_reached(&ANSWERS, 50);
}

#[test]
fn a_book_of_65_535_entries_comes_back_unless_its_last_byte_is_another() {
    let (n, g, r) = (15, 8, 3);
    let (whole, entries) = entries(n, g, r, MOST_PLANS);
    assert!(!whole && entries.len() == MOST_PLANS, "{} entries", entries.len());
    let list = joined(&entries);
    let mut book = vec![0; 5_000_000];
    let written = plan_write_book(n, g, r, &list, &mut book);
    assert_eq!(written.number, 0);
    book.truncate(written.count);
    compare_refused(&book, list.len() - 1, 8);
    compare_taken(&book, list.len() + 1, [n, g, r], &list);
    book[written.count - 1] ^= 1;
    compare_refused(&book, list.len(), 12);
}
