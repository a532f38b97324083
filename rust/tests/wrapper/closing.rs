//! Closing: its questions, its answers and its refusals, and the driver beside trying all values.

use crate::pairing::boards;
use crate::refused;
use crate::trial::{one_comparison, Board};
use basmuthar::{closing, earliest, size, Hour, Refusal, Stopped};

/// The record of one integer variable with these bounds, and no clause.
fn one_number(lower: i16, upper: i16) -> Vec<u8> {
    Board { bounds: vec![(lower, upper)], booleans: 0, clauses: vec![] }.record()
}

fn unfinished(low: i32, high: i32, question: i32) -> Result<Hour, Refusal> {
    Ok(Hour::Unfinished { low, high, question })
}

/// What Closing answers after each count of true replies, where the least value is this; `None` is no solution.
fn course(record: &[u8], least: Option<i32>) -> Vec<Hour> {
    let (mut replies, mut answers) = (Vec::new(), Vec::new());
    loop {
        let answer = closing(record, 0, &replies).unwrap();
        answers.push(answer);
        let Hour::Unfinished { question, .. } = answer else {
            return answers;
        };
        replies.push(u8::from(least.is_some_and(|least| least <= question)));
    }
}

#[test]
fn hours_below_0_are_halved_downwards() {
    let record = one_number(-4, 3);
    assert_eq!(closing(&record, 0, &[]), unfinished(-4, 3, 3));
    assert_eq!(closing(&record, 0, &[1]), unfinished(-4, 3, -1));
    assert_eq!(closing(&record, 0, &[1, 1]), unfinished(-4, -1, -3));
    assert_eq!(closing(&record, 0, &[1, 1, 1]), unfinished(-4, -3, -4));
    assert_eq!(closing(&record, 0, &[1, 1, 1, 1]), Ok(Hour::Found(-4)));
    assert_eq!(closing(&record, 0, &[1, 1, 1, 0]), Ok(Hour::Found(-3)));
    assert_eq!(closing(&record, 0, &[1, 1, 0]), unfinished(-2, -1, -2));
    assert_eq!(closing(&record, 0, &[1, 0]), unfinished(0, 3, 1));
    assert_eq!(closing(&record, 0, &[1, 0, 1, 0]), Ok(Hour::Found(1)));
    assert_eq!(closing(&record, 0, &[0]), Ok(Hour::None));
}

#[test]
fn one_value_takes_one_question() {
    let record = one_number(-7, -7);
    assert_eq!(closing(&record, 0, &[]), unfinished(-7, -7, -7));
    assert_eq!(closing(&record, 0, &[1]), Ok(Hour::Found(-7)));
    assert_eq!(closing(&record, 0, &[0]), Ok(Hour::None));
}

#[test]
fn a_later_variable_is_asked_within_its_own_bounds() {
    let bounds = vec![(0, 9), (-20, -11), (5, 5)];
    let record = Board { bounds, booleans: 2, clauses: vec![] }.record();
    assert_eq!(closing(&record, 1, &[1]), unfinished(-20, -11, -16));
    assert_eq!(closing(&record, 2, &[1]), Ok(Hour::Found(5)));
}

#[test]
fn every_value_of_the_widest_bounds_takes_14_questions() {
    let record = one_number(-4096, 4095);
    for least in -4096..=4095 {
        let course = course(&record, Some(least));
        assert_eq!(course.len(), 15, "{least}");
        assert_eq!(course[14], Hour::Found(least));
    }
    assert_eq!(course(&record, None).len(), 2);
}

#[test]
fn the_range_narrows_about_the_least_value_and_each_question_is_in_its_middle() {
    for (lower, upper) in [(-4, 3), (0, 0), (-9, -2), (5, 23), (-1, 1), (-4096, -4090)] {
        let record = one_number(lower, upper);
        for least in i32::from(lower)..=i32::from(upper) {
            let course = course(&record, Some(least));
            assert_eq!(course.last(), Some(&Hour::Found(least)));
            for (count, answer) in course[..course.len() - 1].iter().enumerate() {
                let Hour::Unfinished { low, high, question } = *answer else {
                    panic!("{answer:?} after {count} replies");
                };
                assert!(low <= least && least <= high, "{answer:?} about {least}");
                let middle = if count == 0 { upper.into() } else { (low + high).div_euclid(2) };
                assert_eq!(question, middle);
            }
        }
    }
}

#[test]
fn the_record_is_refused_first_then_the_variable_then_a_byte_then_what_is_left_over() {
    let record = one_number(0, 1);
    let too_long = one_comparison((-4096, 4095), &[64, 64, 64], 0).record();
    assert_eq!(closing(&record[..14], 9, &[0, 2]), refused(2, 0));
    assert_eq!(closing(&too_long, 9, &[0, 2]), refused(9, 0));
    assert_eq!(closing(&record, 9, &[0, 2]), refused(22, 9));
    assert_eq!(closing(&record, 0, &[0, 2]), refused(12, 1));
    assert_eq!(closing(&record, 0, &[0, 1]), refused(23, 1));
}

#[test]
fn a_variable_that_the_record_does_not_have_is_refused_by_its_number() {
    let record = Board { bounds: vec![(0, 1); 2], booleans: 3, clauses: vec![] }.record();
    assert_eq!(closing(&record, 1, &[]), unfinished(0, 1, 1));
    for variable in [2, 3, 70_000, usize::MAX] {
        assert_eq!(closing(&record, variable, &[]), refused(22, variable as u64));
    }
    assert_eq!(closing(&[1, 0, 0, 0, 6, 0, 0, 0, 0, 0, 0], 0, &[]), refused(22, 0));
}

#[test]
fn all_reply_bytes_are_looked_at_before_any_is_left_over() {
    let record = one_number(0, 1);
    assert_eq!(closing(&record, 0, &[255]), refused(12, 0));
    assert_eq!(closing(&record, 0, &[1, 2, 3]), refused(12, 1));
    assert_eq!(closing(&record, 0, &[1, 1, 1, 1, 7]), refused(12, 4));
    assert_eq!(closing(&record, 0, &[0, 0, 2]), refused(12, 2));
}

#[test]
fn replies_left_over_are_counted() {
    let record = one_number(0, 1);
    assert_eq!(closing(&record, 0, &[1, 1, 0]), refused(23, 1));
    assert_eq!(closing(&record, 0, &[1, 0, 1, 1, 1]), refused(23, 3));
    assert_eq!(closing(&record, 0, &[0, 1, 1]), refused(23, 2));
    assert_eq!(closing(&record, 0, &[1; 1_000]), refused(23, 998));
}

#[test]
fn every_refusal_of_size_is_a_refusal_of_closing() {
    let record = one_comparison((2, 6), &[1, 1], 7).record();
    for place in 0..record.len() {
        for byte in [0, 1, 2, 9, 255] {
            let mut damaged = record.clone();
            damaged[place] = byte;
            if let Err(refusal) = size(&damaged) {
                assert_eq!(closing(&damaged, 9, &[9]), Err(refusal), "byte {place} is {byte}");
            }
        }
    }
}

#[test]
fn the_driver_finds_what_trying_all_values_finds() {
    let (mut found, mut none) = (0, 0);
    let impossible = one_comparison((0, 3), &[1, 1], -2);
    for board in boards().into_iter().chain([impossible]) {
        let (record, solutions) = (board.record(), board.solutions());
        for (variable, (_, upper)) in board.bounds.iter().enumerate() {
            let values: Vec<i32> = solutions.iter().map(|(values, _)| values[variable]).collect();
            let mut asked = Vec::new();
            let least = earliest(&record, variable, |hour| {
                asked.push(hour);
                Ok::<bool, ()>(values.iter().any(|value| *value <= hour))
            });
            assert_eq!(least, Ok(values.iter().min().copied()), "{variable} of {board:?}");
            assert_eq!(asked[0], i32::from(*upper));
            *if values.is_empty() { &mut none } else { &mut found } += 1;
        }
    }
    assert!(found > 0 && none > 0, "{found} found, {none} without a solution");
}

#[test]
fn the_driver_says_none_after_one_no() {
    let mut questions = 0;
    let least = earliest(&one_number(3, 90), 0, |_| {
        questions += 1;
        Ok::<bool, ()>(false)
    });
    assert_eq!((least, questions), (Ok(None), 1));
}

#[test]
fn what_a_question_fails_with_is_handed_on() {
    let mut questions = 0;
    let stopped = earliest(&one_number(0, 90), 0, |hour| {
        questions += 1;
        if questions < 3 {
            Ok(true)
        } else {
            Err(format!("no reply at {hour}"))
        }
    });
    assert_eq!(stopped, Err(Stopped::Asking("no reply at 22".to_string())));
    assert_eq!(questions, 3);
}

#[test]
fn what_is_refused_is_refused_before_the_first_question() {
    let never = |hour: i32| -> Result<bool, ()> { panic!("asked at {hour}") };
    let unknown = Stopped::Refused(Refusal { number: 22, detail: 1 });
    assert_eq!(earliest(&one_number(0, 9), 1, never), Err(unknown));
    let too_short = Stopped::Refused(Refusal { number: 2, detail: 0 });
    assert_eq!(earliest(&[1, 0], 0, never), Err(too_short));
}
