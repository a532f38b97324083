//! Closing: questions and values worked out by hand, Table 1 of document 003, and the refusals.

use second::board::{Board, Bounds, Clause, Comparison, Literal, Term};
use second::boards::writing::written;
use second::{closing, Closing, Refusal};

/// A record of one variable with these bounds and no clause.
fn one_variable(lower: i64, upper: i64) -> Vec<u8> {
    let board = Board {
        variables: vec![Bounds { lower, upper }],
        booleans: 0,
        clauses: Vec::new(),
    };
    written(&board).record
}

/// Variables of equal bounds, and their sum times a coefficient at most a constant.
fn bounded_sum(variables: usize, bounds: Bounds, coefficient: i64, constant: i64) -> Vec<u8> {
    let terms = (0..variables).map(|variable| Term {
        coefficient,
        variable,
    });
    let terms = terms.collect();
    let literals = vec![Literal::Comparison(Comparison { terms, constant })];
    let board = Board {
        variables: vec![bounds; variables],
        booleans: 0,
        clauses: vec![Clause { literals }],
    };
    written(&board).record
}

/// Two variables in 2..6, and their sum times a coefficient at most a constant.
fn two_variables(coefficient: i64, constant: i64) -> Vec<u8> {
    bounded_sum(2, Bounds { lower: 2, upper: 6 }, coefficient, constant)
}

fn found(value: i32) -> Result<Closing, Refusal> {
    Ok(Closing::Found(value))
}

fn unfinished(low: i32, high: i32, next: i32) -> Result<Closing, Refusal> {
    Ok(Closing::Unfinished { low, high, next })
}

fn refused(number: u8, detail: u64) -> Result<Closing, Refusal> {
    Err(Refusal { number, detail })
}

/// The low, high and next question before each of the replies.
fn ranges(record: &[u8], replies: &[u8]) -> Vec<[i32; 3]> {
    let given = (0..replies.len()).map(|count| closing(record, 0, &replies[..count]));
    given
        .map(|outcome| match outcome {
            Ok(Closing::Unfinished { low, high, next }) => [low, high, next],
            other => panic!("{other:?} with replies to come"),
        })
        .collect()
}

fn questions(record: &[u8], replies: &[u8]) -> Vec<i32> {
    let ranges = ranges(record, replies).into_iter();
    ranges.map(|[_, _, next]| next).collect()
}

/// What true replies lead to where this value is the least, and how many they are.
fn asked_truly(record: &[u8], least: i32) -> (Closing, usize) {
    let mut replies = Vec::new();
    loop {
        match closing(record, 0, &replies).unwrap() {
            Closing::Unfinished { low, high, next } => {
                assert!(low <= least && least <= high);
                replies.push(u8::from(least <= next));
            }
            outcome => return (outcome, replies.len()),
        }
    }
}

#[test]
fn table_1_of_document_003() {
    let record = one_variable(1_000, 1_509);
    let replies = [1, 1, 0, 1, 0, 1, 0, 1, 1, 1];
    let table = [
        [1_000, 1_509, 1_509],
        [1_000, 1_509, 1_254],
        [1_000, 1_254, 1_127],
        [1_128, 1_254, 1_191],
        [1_128, 1_191, 1_159],
        [1_160, 1_191, 1_175],
        [1_160, 1_175, 1_167],
        [1_168, 1_175, 1_171],
        [1_168, 1_171, 1_169],
        [1_168, 1_169, 1_168],
    ];
    assert_eq!(ranges(&record, &replies), table);
    assert_eq!(closing(&record, 0, &replies), found(1_168));
}

#[test]
fn halves_are_rounded_down_below_zero() {
    let record = one_variable(-4, 3);
    let paths: [(&[u8], &[i32], i32); 8] = [
        (&[1, 1, 1, 1], &[3, -1, -3, -4], -4),
        (&[1, 1, 1, 0], &[3, -1, -3, -4], -3),
        (&[1, 1, 0, 1], &[3, -1, -3, -2], -2),
        (&[1, 1, 0, 0], &[3, -1, -3, -2], -1),
        (&[1, 0, 1, 1], &[3, -1, 1, 0], 0),
        (&[1, 0, 1, 0], &[3, -1, 1, 0], 1),
        (&[1, 0, 0, 1], &[3, -1, 1, 2], 2),
        (&[1, 0, 0, 0], &[3, -1, 1, 2], 3),
    ];
    for (replies, asked, value) in paths {
        assert_eq!(questions(&record, replies), asked);
        assert_eq!(closing(&record, 0, replies), found(value));
    }
}

#[test]
fn a_range_below_zero_with_paths_of_two_lengths() {
    let record = one_variable(-7, -5);
    assert_eq!(questions(&record, &[1, 1, 1]), [-5, -6, -7]);
    assert_eq!(closing(&record, 0, &[1, 1, 1]), found(-7));
    assert_eq!(closing(&record, 0, &[1, 1, 0]), found(-6));
    assert_eq!(closing(&record, 0, &[1, 0]), found(-5));
    assert_eq!(closing(&record, 0, &[1, 0, 0]), refused(23, 1));
}

#[test]
fn one_value_takes_one_question() {
    for value in [-4_096, -3, 0, 5, 4_095] {
        let record = one_variable(value, value);
        let value = value as i32;
        assert_eq!(closing(&record, 0, &[]), unfinished(value, value, value));
        assert_eq!(closing(&record, 0, &[1]), found(value));
        assert_eq!(closing(&record, 0, &[0]), Ok(Closing::None));
        assert_eq!(closing(&record, 0, &[1, 1]), refused(23, 1));
    }
}

#[test]
fn the_greatest_range_takes_14_questions_to_its_least() {
    let record = one_variable(-4_096, 4_095);
    let asked = [
        4_095, -1, -2_049, -3_073, -3_585, -3_841, -3_969, -4_033, -4_065, -4_081, -4_089, -4_093,
        -4_095, -4_096,
    ];
    assert_eq!(questions(&record, &[1; 14]), asked);
    assert_eq!(closing(&record, 0, &[1; 14]), found(-4_096));
    assert_eq!(closing(&record, 0, &[1; 15]), refused(23, 1));
}

#[test]
fn the_greatest_range_takes_14_questions_to_its_greatest() {
    let record = one_variable(-4_096, 4_095);
    let mut replies = [0; 14];
    replies[0] = 1;
    let asked = [
        4_095, -1, 2_047, 3_071, 3_583, 3_839, 3_967, 4_031, 4_063, 4_079, 4_087, 4_091, 4_093,
        4_094,
    ];
    assert_eq!(questions(&record, &replies), asked);
    assert_eq!(closing(&record, 0, &replies), found(4_095));
    replies[13] = 1;
    assert_eq!(closing(&record, 0, &replies), found(4_094));
}

#[test]
fn a_first_no_is_none() {
    let record = one_variable(-4, 3);
    assert_eq!(closing(&record, 0, &[0]), Ok(Closing::None));
    assert_eq!(closing(&record, 0, &[0, 1]), refused(23, 1));
    assert_eq!(closing(&record, 0, &[0, 0, 1, 1, 0]), refused(23, 4));
}

#[test]
fn replies_left_over_are_counted() {
    let record = one_variable(-4, 3);
    assert_eq!(closing(&record, 0, &[1, 0, 1, 0]), found(1));
    assert_eq!(closing(&record, 0, &[1, 0, 1, 0, 0]), refused(23, 1));
    assert_eq!(closing(&record, 0, &[1, 0, 1, 0, 1, 1, 0]), refused(23, 3));
    assert_eq!(closing(&record, 0, &[1; 300]), refused(23, 296));
}

#[test]
fn unfinished_after_each_count() {
    let record = one_variable(-4, 3);
    assert_eq!(closing(&record, 0, &[]), unfinished(-4, 3, 3));
    assert_eq!(closing(&record, 0, &[1]), unfinished(-4, 3, -1));
    assert_eq!(closing(&record, 0, &[1, 1]), unfinished(-4, -1, -3));
    assert_eq!(closing(&record, 0, &[1, 0]), unfinished(0, 3, 1));
    assert_eq!(closing(&record, 0, &[1, 1, 1]), unfinished(-4, -3, -4));
    assert_eq!(closing(&record, 0, &[1, 1, 0]), unfinished(-2, -1, -2));
    assert_eq!(closing(&record, 0, &[1, 0, 1]), unfinished(0, 1, 0));
    assert_eq!(closing(&record, 0, &[1, 0, 0]), unfinished(2, 3, 2));
}

#[test]
fn unknown_variables() {
    let record = two_variables(1, 7);
    assert_eq!(closing(&record, 1, &[]), unfinished(2, 6, 6));
    assert_eq!(closing(&record, 2, &[]), refused(22, 2));
    assert_eq!(closing(&record, 65_536, &[1]), refused(22, 65_536));
    let far = usize::MAX;
    assert_eq!(closing(&record, far, &[1]), refused(22, far as u64));
    let none = [1, 0, 0, 0, 6, 0, 0, 0, 0, 0, 0];
    assert_eq!(closing(&none, 0, &[]), refused(22, 0));
}

#[test]
fn reply_bytes_are_looked_at_before_any_is_left_over() {
    let record = one_variable(5, 5);
    assert_eq!(closing(&record, 0, &[2]), refused(12, 0));
    assert_eq!(closing(&record, 0, &[1, 255]), refused(12, 1));
    assert_eq!(closing(&record, 0, &[0, 1, 1, 2, 7]), refused(12, 3));
    let record = one_variable(-4, 3);
    assert_eq!(closing(&record, 0, &[1, 2]), refused(12, 1));
    assert_eq!(closing(&record, 0, &[1, 0, 1, 0, 1, 2]), refused(12, 5));
}

#[test]
fn the_order_is_the_record_then_22_then_12_then_23() {
    let mut record = one_variable(5, 5);
    assert_eq!(closing(&record, 1, &[1, 1, 2]), refused(22, 1));
    assert_eq!(closing(&record, 0, &[1, 1, 2]), refused(12, 2));
    assert_eq!(closing(&record, 0, &[1, 1, 1]), refused(23, 2));
    record[0] = 9;
    assert_eq!(closing(&record, 1, &[1, 1, 2]), refused(3, 0));
    let widest = Bounds {
        lower: -4_096,
        upper: 4_095,
    };
    let case_10 = bounded_sum(3, widest, 64, 0);
    assert_eq!(closing(&case_10, 3, &[2]), refused(9, 0));
}

#[test]
fn true_replies_lead_to_the_least_value() {
    // x + y at most 7: x may be 2, since y = 5 is there.
    let record = two_variables(1, 7);
    assert_eq!(questions(&record, &[1, 1, 1, 1]), [6, 4, 3, 2]);
    assert_eq!(closing(&record, 0, &[1, 1, 1, 1]), found(2));
    // x + y at least 11: x is 5 or 6.
    let record = two_variables(-1, -11);
    assert_eq!(questions(&record, &[1, 0, 1]), [6, 4, 5]);
    assert_eq!(closing(&record, 0, &[1, 0, 1]), found(5));
    // x + y at least 13: no solution.
    let record = two_variables(-1, -13);
    assert_eq!(closing(&record, 0, &[0]), Ok(Closing::None));
}

#[test]
fn true_replies_find_every_value_of_small_ranges() {
    for lower in -10..=10_i64 {
        for values in 1..=17 {
            let upper = lower + values - 1;
            let record = one_variable(lower, upper);
            // One question at the upper bound, and one for each halving.
            let most = 1 + (0..).find(|halvings| 1 << halvings >= values).unwrap();
            for least in lower as i32..=upper as i32 {
                let (outcome, questions) = asked_truly(&record, least);
                assert_eq!(outcome, Closing::Found(least));
                assert!(questions <= most);
            }
        }
    }
}

#[test]
fn true_replies_find_every_value_of_the_greatest_range() {
    let record = one_variable(-4_096, 4_095);
    for least in -4_096..=4_095 {
        assert_eq!(asked_truly(&record, least), (Closing::Found(least), 14));
    }
}
