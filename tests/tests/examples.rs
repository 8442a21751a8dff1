//! The examples of document 01, called through the exported functions. Words have plus signs and columns mask 0.

use plan_tests::guarded::*;
use planner::{Signs, PLAN_DIFFERENT, PLAN_NO, PLAN_SAME, PLAN_YES};

const ABCD: u16 = 0b1111;
const CDEF: u16 = 0b111100;
const ACEGHJ: u16 = 0b111010101;
const AEFG: u16 = 0b1110001;
const BEHJ: u16 = 0b110010010;

const P_WORDS: [u16; 3] = [ABCD, CDEF, ACEGHJ];
const P_PLAN: [u8; 11] = [1, 2, 4, 7, 8, 11, 16, 32, 61, 0, 0];
const Q_WORDS: [u16; 3] = [ABCD, AEFG, BEHJ];
const Q_PLAN: [u8; 11] = [1, 2, 4, 7, 8, 16, 25, 32, 42, 0, 0];

/// The pattern of P and of Q: three words of 4 and four of 6.
const P_Q_PATTERN: [u16; 9] = [0, 0, 0, 3, 0, 4, 0, 0, 0];

#[test]
fn columns_1_2_3_have_runs_0_5_6_3() {
    let mut runs = [99; 4];
    assert_eq!(plan_runs_of_columns(3, 1, &[1, 2, 3, 0, 0], &mut runs), 0);
    assert_eq!(runs, [0, 5, 6, 3]);
}

#[test]
fn columns_1_2_3_have_distance_counts_1_0_3_0() {
    let mut counts = [99; 4];
    assert_eq!(plan_distances_of_columns(3, 1, &[1, 2, 3, 0, 0], &mut counts), 0);
    assert_eq!(counts, [1, 0, 3, 0]);
    let mut counts = [99; 4];
    assert_eq!(plan_distances_of_runs(3, 1, &[0, 5, 6, 3], &mut counts), 0);
    assert_eq!(counts, [1, 0, 3, 0]);
    let mut counts = [99; 4];
    assert_eq!(plan_distances_of_words(3, 1, &[0b111], 0, &mut counts), 0);
    assert_eq!(counts, [1, 0, 3, 0]);
}

#[test]
fn the_words_of_p_and_q_have_the_columns_on_the_whiteboard() {
    for (words, expected) in [(P_WORDS, P_PLAN), (Q_WORDS, Q_PLAN)] {
        let mut plan = [99; 11];
        assert_eq!(plan_columns_of_words(9, 3, &words, 0, &mut plan), 0);
        assert_eq!(plan, expected);
    }
}

#[test]
fn the_words_of_p_and_q_come_back_reduced() {
    // CDEF holds D, the last letter of ABCD: their product ABEF stands for it
    let reduced_p = [ABCD, ABCD ^ CDEF, ACEGHJ];
    for (columns, expected) in [(P_PLAN, reduced_p), (Q_PLAN, Q_WORDS)] {
        let mut words = [99; 3];
        assert_eq!(plan_words_of_columns(9, 3, &columns, &mut words), Signs { number: 0, signs: 0 });
        assert_eq!(words, expected);
    }
}

#[test]
fn p_and_q_have_three_words_of_4_and_four_of_6() {
    for (words, columns) in [(P_WORDS, P_PLAN), (Q_WORDS, Q_PLAN)] {
        let mut pattern = [99; 9];
        assert_eq!(plan_pattern_of_words(9, 3, &words, 0, &mut pattern), 0);
        assert_eq!(pattern, P_Q_PATTERN);
        let mut pattern = [99; 9];
        assert_eq!(plan_pattern_of_columns(9, 3, &columns, &mut pattern), 0);
        assert_eq!(pattern, P_Q_PATTERN);
        let mut resolution = [99];
        assert_eq!(plan_resolution_of_columns(9, 3, &columns, &mut resolution), 0);
        assert_eq!(resolution, [4]);
    }
}

#[test]
fn of_p_and_q_whose_patterns_are_equal_the_first_is_handed_back() {
    assert_eq!(plan_aberration_refusal(9, 3, &P_WORDS, &Q_WORDS), 0);
    assert_eq!(plan_less_aberration(9, 3, &P_WORDS, &Q_WORDS), 1);
    assert_eq!(plan_less_aberration(9, 3, &Q_WORDS, &P_WORDS), 1);
}

#[test]
fn document_000s_example_2_prefers_its_first_design() {
    let (d1, d2) = ([0b100111, 0b1011110], [0b100111, 0b1011001]);
    assert_eq!(plan_less_aberration(7, 2, &d1, &d2), 1);
    assert_eq!(plan_less_aberration(7, 2, &d2, &d1), 2);
}

#[test]
fn a_full_factorial_of_3_factors_has_standard_columns_resolution_4_and_all_runs() {
    let mut plan = [99; 5];
    assert_eq!(plan_columns_of_words(3, 0, &[], 0, &mut plan), 0);
    assert_eq!(plan, [1, 2, 4, 0, 0]);
    let mut resolution = [99];
    assert_eq!(plan_resolution_of_words(3, 0, &[], 0, &mut resolution), 0);
    assert_eq!(resolution, [4]);
    let mut runs = [99; 8];
    assert_eq!(plan_runs_of_columns(3, 0, &[1, 2, 4, 0, 0], &mut runs), 0);
    assert_eq!(runs, [0, 1, 2, 3, 4, 5, 6, 7]);
    let mut words = [99; 2];
    assert_eq!(plan_words_of_columns(3, 0, &[1, 2, 4, 0, 0], &mut words), Signs { number: 0, signs: 0 });
    assert_eq!(words, [99; 2]);
}

#[test]
fn seven_columns_of_three_basic_factors_have_seven_words_of_3_and_seven_of_4() {
    let mut pattern = [99; 7];
    assert_eq!(plan_pattern_of_columns(7, 4, &[1, 2, 3, 4, 5, 6, 7, 0, 0], &mut pattern), 0);
    assert_eq!(pattern, [0, 0, 7, 7, 0, 0, 1]);
}

#[test]
fn the_examples_of_the_refusal_table_are_refused_and_leave_the_list_untouched() {
    let refused: [(usize, usize, &[u16], u8); 6] =
        [(17, 1, &[7], 1), (9, 1, &[7], 2), (5, 1, &[7, 25], 4), (3, 1, &[8], 5), (4, 2, &[7, 7], 6), (3, 1, &[3], 7)];
    for (n, g, words, number) in refused {
        let mut plan = [99; 19];
        assert_eq!(plan_columns_of_words(n, g, words, 0, &mut plan), number, "n {n} g {g} {words:?}");
        assert_eq!(plan, [99; 19], "n {n} g {g} {words:?}");
    }
    let mut plan = [99; 6];
    assert_eq!(plan_columns_of_words(5, 1, &[7], 0, &mut plan), 8, "a list of 6 for N 5");
    assert_eq!(plan, [99; 6]);
}

#[test]
fn a_zero_word_is_6_and_a_zero_or_repeated_column_7_unless_6_applies() {
    let mut resolution = [99];
    assert_eq!(plan_resolution_of_words(4, 1, &[0], 0, &mut resolution), 6);
    assert_eq!(plan_resolution_of_columns(3, 1, &[1, 2, 0, 0, 0], &mut resolution), 7);
    assert_eq!(plan_resolution_of_columns(3, 1, &[1, 2, 2, 0, 0], &mut resolution), 7);
    assert_eq!(plan_resolution_of_columns(3, 1, &[1, 1, 0, 0, 0], &mut resolution), 6);
    assert_eq!(resolution, [99]);
}

#[test]
fn a_product_of_generators_that_is_too_short_is_refused_under_7() {
    // ABCDE and ABCF multiply to DEF, which is long enough; ABCD and ABCE multiply to DE
    let mut resolution = [99];
    assert_eq!(plan_resolution_of_words(6, 2, &[0b11111, 0b100111], 0, &mut resolution), 0);
    assert_eq!(resolution, [3]);
    let mut resolution = [99];
    assert_eq!(plan_resolution_of_words(5, 2, &[0b1111, 0b10111], 0, &mut resolution), 7);
    assert_eq!(resolution, [99]);
}

#[test]
fn switching_levels_leaves_columns_pattern_and_distance_counts() {
    // the runs of columns 1 2 3 with A switched: every word of 3 letters changes its sign, as by a switch of C, its last letter
    let mut plan = [99; 5];
    assert_eq!(plan_columns_of_runs(3, 1, &[1, 4, 7, 2], &mut plan), 0);
    assert_eq!(plan, [1, 2, 3, 4, 0]);
    let mut pattern = [99; 3];
    assert_eq!(plan_pattern_of_runs(3, 1, &[1, 4, 7, 2], &mut pattern), 0);
    assert_eq!(pattern, [0, 0, 1]);
    let mut counts = [99; 4];
    assert_eq!(plan_distances_of_runs(3, 1, &[1, 4, 7, 2], &mut counts), 0);
    assert_eq!(counts, [1, 0, 3, 0]);
}

#[test]
fn p_and_q_are_different_with_length_0() {
    let mut witness = [99; 9];
    assert_eq!(plan_compare_columns(9, 3, &P_PLAN, &Q_PLAN, &mut witness), PLAN_DIFFERENT);
    assert_eq!(plan_compare_columns(9, 3, &Q_PLAN, &P_PLAN, &mut witness), PLAN_DIFFERENT);
    assert_eq!(witness, [99; 9]);
    let (mut p, mut q) = ([0; 64], [0; 64]);
    assert_eq!(plan_runs_of_columns(9, 3, &P_PLAN, &mut p), 0);
    assert_eq!(plan_runs_of_columns(9, 3, &Q_PLAN, &mut q), 0);
    assert_eq!(plan_compare_runs(9, 3, &p, &q, &mut witness), PLAN_DIFFERENT);
    assert_eq!(witness, [99; 9]);
}

#[test]
fn a_word_of_3_and_a_word_of_4_are_different_with_length_3() {
    let mut witness = [99; 4];
    assert_eq!(plan_compare_columns(4, 1, &[1, 2, 3, 4, 0, 0], &[1, 2, 4, 7, 0, 0], &mut witness), PLAN_DIFFERENT + 3);
    assert_eq!(witness, [99; 4]);
}

#[test]
fn a_witness_of_4_for_5_factors_is_refused_under_8_for_plans_that_are_the_same_or_different() {
    let (one, other) = ([1, 2, 3, 4, 8, 0, 0], [1, 2, 4, 7, 8, 0, 0]);
    let mut witness = [99; 4];
    assert_eq!(plan_compare_columns(5, 1, &one, &one, &mut witness), 8);
    assert_eq!(plan_compare_columns(5, 1, &one, &other, &mut witness), 8);
    assert_eq!(witness, [99; 4]);
}

#[test]
fn the_only_run_sets_of_one_factor_are_the_same_with_either_mask() {
    let mut witness = [99; 2];
    let answer = plan_compare_runs(1, 0, &[0, 1], &[1, 0], &mut witness);
    assert!(answer == PLAN_SAME || answer == PLAN_SAME + 1, "{answer:#x}");
    assert_eq!(witness, [0, 99]);
    assert_eq!(plan_check_witness(1, 0, &[0, 1], &[1, 0], &[0], 0), PLAN_YES);
    assert_eq!(plan_check_witness(1, 0, &[0, 1], &[1, 0], &[0], 1), PLAN_YES);
    assert_eq!(plan_check_witness(1, 0, &[0, 1], &[1, 0], &[0], 2), PLAN_NO);
}
