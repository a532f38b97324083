//! What is lent: lengths that are refused, the order of the checks, and what a refusal leaves.

use crate::refused;
use crate::trial::{Board, Literal};
use basmuthar::{compile, decode, image, judge, size};

/// x in 0..2, one Boolean, and the clause: x at most 1, or the Boolean. N is 6.
fn board() -> Vec<u8> {
    let board = Board {
        bounds: vec![(0, 2)],
        booleans: 1,
        clauses: vec![vec![Literal::AtMost(vec![(1, 0)], 1), Literal::Boolean(1)]],
    };
    board.record()
}

#[test]
fn decode_tests_model_values_and_booleans_in_that_order() {
    let record = board();
    let (mut values, mut booleans) = ([77; 2], [77; 2]);
    assert_eq!(decode(&record, &[7; 5], &mut values, &mut booleans), refused(11, 6));
    assert_eq!(decode(&record, &[7; 6], &mut values, &mut booleans), refused(11, 1));
    assert_eq!(decode(&record, &[7; 6], &mut values[..1], &mut booleans), refused(11, 1));
    assert_eq!(decode(&record, &[7; 6], &mut values[..1], &mut booleans[..1]), refused(12, 0));
    assert_eq!((values, booleans), ([77; 2], [77; 2]));
}

#[test]
fn judge_tests_booleans_before_values_and_values_before_clauses() {
    let record = board();
    assert_eq!(judge(&record, &[], &[7]), refused(11, 1));
    assert_eq!(judge(&record, &[9], &[]), refused(11, 1));
    assert_eq!(judge(&record, &[9], &[7]), refused(12, 0));
    assert_eq!(judge(&record, &[9], &[0]), refused(14, 0));
    assert_eq!(judge(&record, &[-1], &[0]), refused(14, 0));
    assert_eq!(judge(&record, &[2], &[0]), refused(13, 0));
    assert_eq!(judge(&record, &[2], &[1]), Ok(()));
}

#[test]
fn image_tests_the_model_after_values_and_booleans() {
    let record = board();
    let mut model = [77; 7];
    assert_eq!(image(&record, &[], &[7], &mut model), refused(11, 1));
    assert_eq!(image(&record, &[9], &[7], &mut model), refused(11, 6));
    assert_eq!(image(&record, &[9], &[7], &mut model[..6]), refused(12, 0));
    assert_eq!(image(&record, &[9], &[0], &mut model[..6]), refused(14, 0));
    assert_eq!(image(&record, &[2], &[0], &mut model[..6]), refused(13, 0));
    assert_eq!(model, [77; 7]);
    assert_eq!(image(&record, &[1], &[0], &mut model[..6]), Ok(()));
    assert_eq!(model, [0, 0, 0, 1, 1, 1, 77]);
}

#[test]
fn an_accepted_call_writes_only_what_it_says() {
    let record = board();
    let (mut values, mut booleans) = ([77; 3], [77; 3]);
    let model = [1, 0, 0, 0, 1, 0];
    assert_eq!(decode(&record, &model, &mut values[1..2], &mut booleans[1..2]), Ok(()));
    assert_eq!((values, booleans), ([77, 2, 77], [77, 1, 77]));
    let numbers = size(&record).unwrap().numbers;
    let mut list = vec![77; numbers + 2];
    compile(&record, &mut list[1..]).unwrap();
    assert_eq!((list[0], list[numbers], list[numbers + 1]), (77, 0, 77));
}

#[test]
fn the_head_is_tested_before_the_body() {
    assert_eq!(size(&[9; 65_537]), refused(1, 0));
    assert_eq!(size(&[9; 4]), refused(2, 0));
    assert_eq!(size(&[]), refused(2, 0));
    assert_eq!(size(&[9; 5]), refused(3, 0));
    assert_eq!(size(&[1; 5]), refused(2, 0));
    assert_eq!(size(&[1, 0, 0, 0, 0]), refused(8, 5));
}

#[test]
fn a_prefix_of_a_record_is_refused_at_the_field_that_is_cut() {
    let record = board();
    // The fields after the stated length: three counts, two bounds, then the clause's.
    let places = [5, 7, 9, 11, 13, 15, 16, 17, 18, 19, 21, 25, 26];
    for length in 5..record.len() {
        let mut cut = record[..length].to_vec();
        cut[4] = length as u8 - 5;
        let field = places.iter().rev().find(|place| **place <= length).unwrap();
        assert_eq!(size(&cut), refused(8, *field as u64), "cut to {length} bytes");
    }
}
