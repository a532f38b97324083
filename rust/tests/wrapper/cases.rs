//! The cases of 01, one test for each, by its number there.

use crate::refused;
use crate::trial::{one_comparison, Board, Literal};
use basmuthar::{closing, compile, decode, image, judge, size, Sizes};

fn sizes(variables: usize, clauses: usize, numbers: usize) -> Sizes {
    Sizes { variables, clauses, numbers }
}

/// The clauses of a board without the axioms, each without its 0.
fn rule_clauses(board: &Board) -> Vec<Vec<i32>> {
    let record = board.record();
    let mut list = vec![0; size(&record).unwrap().numbers];
    compile(&record, &mut list).unwrap();
    let axioms: i32 = board.bounds.iter().map(|(lower, upper)| i32::from(upper - lower) + 3).sum();
    let clauses = list.split(|number| *number == 0).map(<[i32]>::to_vec);
    let mut clauses: Vec<Vec<i32>> = clauses.skip(axioms as usize).collect();
    clauses.pop();
    clauses
}

fn unequal() -> Board {
    let comparison = |coefficients: [i8; 2]| {
        let terms = coefficients.into_iter().zip(0..).collect();
        Literal::AtMost(terms, -1)
    };
    Board {
        bounds: vec![(0, 2); 2],
        booleans: 0,
        clauses: vec![vec![comparison([1, -1]), comparison([-1, 1])]],
    }
}

#[test]
fn case_1_nothing_at_all() {
    let record = [1, 0, 0, 0, 6, 0, 0, 0, 0, 0, 0];
    assert_eq!(size(&record), Ok(sizes(0, 0, 0)));
    assert_eq!(compile(&record, &mut []), Ok(sizes(0, 0, 0)));
    assert_eq!(decode(&record, &[], &mut [], &mut []), Ok(()));
    assert_eq!(judge(&record, &[], &[]), Ok(()));
    assert_eq!(image(&record, &[], &[], &mut []), Ok(()));
}

#[test]
fn case_2_a_sum_of_two() {
    let board = one_comparison((2, 6), &[1, 1], 7);
    assert_eq!(size(&board.record()), Ok(sizes(12, 19, 53)));
    // p(x,1..6) are 1 to 6 and p(y,1..6) are 7 to 12.
    let expected = [[1, 11], [2, 10], [3, 9], [4, 8], [5, 7]].map(Vec::from);
    assert_eq!(rule_clauses(&board), expected);
    let judged = board.settings();
    let accepted = judged.iter().filter(|(values, _)| judge(&board.record(), values, &[]).is_ok());
    assert_eq!(accepted.count(), 10);
}

#[test]
fn case_3_a_sum_of_three() {
    let board = one_comparison((0, 3), &[1, 1, -1], -2);
    assert_eq!(size(&board.record()), Ok(sizes(15, 24, 72)));
    assert_eq!(rule_clauses(&board).len(), 6);
}

#[test]
fn case_4_the_edge() {
    let board = one_comparison((0, 4), &[1, -1], -2);
    assert_eq!(size(&board.record()), Ok(sizes(12, 18, 50)));
    // p(x,2) is 4 and p(y,4) is 12.
    assert!(rule_clauses(&board).contains(&vec![4, -12]));
    assert_eq!(judge(&board.record(), &[3, 4], &[]), refused(13, 0));
}

#[test]
fn case_5_below_the_least_sum_and_at_it() {
    let impossible = one_comparison((0, 3), &[1, 1], -2);
    assert_eq!(rule_clauses(&impossible), [vec![]]);
    let least = one_comparison((0, 3), &[1, 1], 0);
    assert_eq!(rule_clauses(&least), [[1, 7], [2, 6]].map(Vec::from));
}

#[test]
fn case_6_equal_clauses_stay() {
    let mut clauses = rule_clauses(&one_comparison((0, 3), &[2, 2], 4));
    assert_eq!(clauses.len(), 6);
    clauses.dedup();
    clauses.sort();
    clauses.dedup();
    assert_eq!(clauses.len(), 4);
}

#[test]
fn case_7_one_value_only() {
    let board = Board { bounds: vec![(5, 5)], booleans: 0, clauses: vec![] };
    assert_eq!(size(&board.record()), Ok(sizes(2, 3, 7)));
}

#[test]
fn case_8_models_and_solutions() {
    let at_most = |constant| Literal::AtMost(vec![(1, 0)], constant);
    let board =
        Board { bounds: vec![(0, 3)], booleans: 0, clauses: vec![vec![at_most(1), at_most(2)]] };
    let record = board.record();
    assert_eq!(size(&record).unwrap().variables, 7);
    let mut decoded = Vec::new();
    for bits in 0..1 << 7 {
        let model: Vec<u8> = (0..7).map(|place| bits >> place & 1).collect();
        let mut values = [9];
        if decode(&record, &model, &mut values, &mut []).is_ok() {
            decoded.push(values[0]);
        }
    }
    assert_eq!(decoded.len(), 7);
    decoded.sort();
    decoded.dedup();
    assert_eq!(decoded, [0, 1, 2]);
}

#[test]
fn case_9_rounding_where_the_bound_is_negative() {
    // p(x,-11..10) are 1 to 22, so p(x,c) is c + 12.
    assert_eq!(rule_clauses(&one_comparison((-10, 10), &[-3], -7)), [[-14]]);
    assert_eq!(rule_clauses(&one_comparison((-10, 10), &[3], -7)), [[9]]);
}

#[test]
fn case_10_too_many() {
    let record = one_comparison((-4096, 4095), &[64, 64, 64], 0).record();
    assert_eq!(size(&record), refused(9, 0));
    assert_eq!(compile(&record, &mut []), refused(9, 0));
    assert_eq!(decode(&record, &[], &mut [], &mut []), refused(9, 0));
    assert_eq!(judge(&record, &[0; 3], &[]), refused(9, 0));
    assert_eq!(image(&record, &[0; 3], &[], &mut []), refused(9, 0));
}

#[test]
fn case_11_a_coefficient_and_a_version() {
    let mut record = one_comparison((-4096, 4095), &[65, 65, 65], 0).record();
    assert_eq!(size(&record), refused(7, 26));
    record[0] = 9;
    assert_eq!(size(&record), refused(3, 0));
}

/// Case 2 with the second term's variable 2 and 0, and with the constant 1,000,001.
#[test]
fn every_operation_says_which_part_of_a_term_is_wrong() {
    let sound = one_comparison((2, 6), &[1, 1], 7).record();
    let with = |place: usize, bytes: &[u8]| {
        let mut record = sound.clone();
        record[place..place + bytes.len()].copy_from_slice(bytes);
        record
    };
    let constant = 1_000_001_i32.to_be_bytes();
    let wrong = [
        (with(25, &[65]), 7, 25),
        (with(26, &[0, 2]), 15, 26),
        (with(26, &[0, 0]), 16, 26),
        (with(28, &constant), 17, 28),
    ];
    for (record, number, place) in wrong {
        assert_eq!(size(&record), refused(number, place));
        assert_eq!(compile(&record, &mut []), refused(number, place));
        assert_eq!(decode(&record, &[], &mut [], &mut []), refused(number, place));
        assert_eq!(judge(&record, &[], &[]), refused(number, place));
        assert_eq!(image(&record, &[], &[], &mut []), refused(number, place));
        assert_eq!(closing(&record, 9, &[2]), refused(number, place));
    }
}

#[test]
fn case_12_a_list_too_short_and_one_too_long() {
    let record = one_comparison((2, 6), &[1, 1], 7).record();
    let mut list = [77; 54];
    assert_eq!(compile(&record, &mut list[..52]), refused(10, 53));
    assert_eq!(list, [77; 54]);
    assert_eq!(compile(&record, &mut list), Ok(sizes(12, 19, 53)));
    assert_eq!((list[52], list[53]), (0, 77));
}

#[test]
fn case_13_the_whole_list() {
    let board = unequal();
    assert_eq!(board.record().len(), 44);
    let mut list = [77; 53];
    assert_eq!(compile(&board.record(), &mut list), Ok(sizes(10, 17, 53)));
    let expected = [
        "-1 0 4 0 -1 2 0 -2 3 0 -3 4 0",
        "-5 0 8 0 -5 6 0 -6 7 0 -7 8 0",
        "9 10 0 -9 1 -6 0 -9 2 -7 0 -9 3 -8 0",
        "-10 -4 7 0 -10 -3 6 0 -10 -2 5 0",
    ];
    let words = list.map(|number| number.to_string()).join(" ");
    assert_eq!(words, expected.join(" "));
}

#[test]
fn case_14_a_model_and_one_that_breaks_a_selector() {
    let record = unequal().record();
    let mut model = [0, 1, 1, 1, 0, 0, 1, 1, 1, 0];
    let mut values = [77; 2];
    assert_eq!(decode(&record, &model, &mut values, &mut []), Ok(()));
    assert_eq!(values, [0, 1]);
    model[9] = 1;
    values = [77; 2];
    assert_eq!(decode(&record, &model, &mut values, &mut []), refused(13, 15));
    assert_eq!(values, [77; 2]);
}
