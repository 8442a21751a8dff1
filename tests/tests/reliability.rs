//! A sample of the trial: calls of every function, good and damaged, with lists of every length around the bounds, against pages that may
//! not be touched. The program `reliability` makes a million.

use plan_tests::check::plan::Form;
use plan_tests::compare::ANSWERS;
use plan_tests::exported::NAMES;
use plan_tests::records::records;
use plan_tests::trial::Trial;

const CALLS: u64 = 40_000;

#[test]
fn a_sample_of_calls_is_answered_as_defined_without_touching_anything_else() {
    let mut trial = Trial::new(0x7217);
    trial.run(CALLS);
    let records = records();
    for name in NAMES {
        let calls = records.get(name).map_or(0, |record| record.calls);
        assert!(calls > CALLS / 100, "{name}: {calls} calls");
    }
    for form in [Form::Words, Form::Columns, Form::Runs] {
        trial.tally.assert_reached(form, &ANSWERS);
    }
    assert!(trial.counts.same > 100 && trial.counts.different > 20, "{:?}", trial.counts);
    assert!([1, 2, 4, 5, 6, 7, 8].iter().all(|&number| trial.counts.refused[number] > 0), "{:?}", trial.counts);
    assert!([0, 1, 2, 3, 8, 10, 11, 12].iter().all(|&number| trial.read[number] > 0), "{:?}", trial.read);
    assert!([0, 1, 2, 7, 8].iter().all(|&number| trial.loaded[number] > 0), "{:?}", trial.loaded);
}
