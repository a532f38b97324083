//! Solvers' replies: a real one to its values, what a model and a no write, and where a bad reply is refused.

use crate::refused;
use basmuthar::{decode, judge, read_reply, Refusal, Reply};
use std::fs;
use std::path::Path;

fn file(name: &str) -> Vec<u8> {
    fs::read(Path::new(env!("CARGO_MANIFEST_DIR")).join(name)).unwrap()
}

/// What a reply about so many variables gets, with a model of that length, and what the model holds then.
fn read(variables: u32, text: &str) -> (Result<Reply, Refusal>, Vec<u8>) {
    let mut model = vec![77; variables as usize];
    (read_reply(variables, text.as_bytes(), &mut model), model)
}

#[test]
fn a_real_reply_decodes_to_its_values() {
    let record = file("../boards/three_firings.record");
    let mut model = [77; 148];
    let reply = file("tests/replies/three_firings.picosat.reply");
    assert_eq!(read_reply(148, &reply, &mut model), Ok(Reply::Model));
    let (mut values, mut booleans) = ([0; 3], [0; 1]);
    decode(&record, &model, &mut values, &mut booleans).unwrap();
    assert_eq!((values, booleans), ([20, 32, 0], [1]));
    assert_eq!(judge(&record, &values, &booleans), Ok(()));
}

#[test]
fn a_model_has_a_byte_for_each_variable_in_any_order() {
    let rows: [(&str, &[u8]); 4] = [
        ("s SATISFIABLE\nv 0\n", &[]),
        ("s SATISFIABLE\nv 1 -2 3 0\n", &[1, 0, 1]),
        ("s SATISFIABLE\nv -3\nv 2\nv 1\nv 0\n", &[1, 1, 0]),
        ("s SATISFIABLE\nv 10 -9 8 -7 6 -5 4 -3 2\nv -1 0\n", &[0, 1, 0, 1, 0, 1, 0, 1, 0, 1]),
    ];
    for (text, model) in rows {
        let (reply, read) = read(model.len() as u32, text);
        assert_eq!((reply, &read[..]), (Ok(Reply::Model), model), "{text:?}");
    }
}

#[test]
fn many_numbers_in_falling_order_are_read() {
    let many = 100_000;
    let numbers = (1..=many).rev().map(|number| if number % 3 == 0 { number } else { -number });
    let words: Vec<String> = numbers.map(|number: i32| number.to_string()).collect();
    let (reply, model) = read(many as u32, &format!("s SATISFIABLE\nv {} 0\n", words.join(" ")));
    assert_eq!(reply, Ok(Reply::Model));
    let is_right = |(byte, number): (&u8, i32)| *byte == u8::from(number % 3 == 0);
    assert!(model.iter().zip(1..).all(is_right));
}

#[test]
fn a_no_needs_no_model_and_leaves_one() {
    for length in [0, 3, 5] {
        let mut model = vec![77; length];
        assert_eq!(read_reply(3, b"s UNSATISFIABLE\n", &mut model), Ok(Reply::None));
        assert_eq!(model, vec![77; length]);
    }
}

#[test]
fn a_bad_reply_is_refused_at_its_place() {
    let rows = [
        ("", 0),
        ("c\ns UNSATISFIABLE\n", 0),
        ("SAT\n", 0),
        ("s UNKNOWN\n", 4),
        ("s SATISFIABLE", 13),
        ("s UNSATISFIABLE", 15),
        ("s UNSATISFIABLE\r\n", 15),
        ("s UNSATISFIABLE\n\n", 16),
        ("s UNSATISFIABLE\nv 1 0\n", 16),
        ("s SATISFIABLE\n", 14),
        ("s SATISFIABLE\n\nv 0\n", 14),
        ("s SATISFIABLE\ns UNSATISFIABLE\n", 14),
        ("s SATISFIABLE\nv\n", 15),
        ("s SATISFIABLE\nv  1 0\n", 16),
        ("s SATISFIABLE\nv 1 \nv 0\n", 18),
        ("s SATISFIABLE\nv 1 2 3\n", 22),
        ("s SATISFIABLE\nv 1 2 3 0", 23),
        ("s SATISFIABLE\nv 1 0 2\n", 19),
        ("s SATISFIABLE\nv 1 0\nv 2 0\n", 20),
        ("s SATISFIABLE\nv 1 4 0\n", 18),
        ("s SATISFIABLE\nv 1 -40x\n", 18),
        ("s SATISFIABLE\nv 01 0\n", 17),
        ("s SATISFIABLE\nv -0\n", 17),
        ("s SATISFIABLE\nv 1 x\n", 18),
        ("s SATISFIABLE\nv 1 1 0\r\n", 21),
    ];
    for (text, place) in rows {
        assert_eq!(read(3, text), (refused(18, place), vec![77; 3]), "{text:?}");
    }
    assert_eq!(read(0, "s SATISFIABLE\nv -1 0\n"), (refused(18, 16), vec![]));
    assert_eq!(read(0, "s SATISFIABLE\nv 1 0\n"), (refused(18, 16), vec![]));
}

#[test]
fn the_least_variable_that_is_missing_or_there_twice_is_named() {
    let rows = [
        ("v 0", 1),
        ("v 1 3 0", 2),
        ("v 1 2 0", 3),
        ("v 1 2 3 3 0", 3),
        ("v 3 -2 1 2 0", 2),
        ("v 3 -3 1 0", 2),
        ("v 1 2 3 -1 2 0", 1),
    ];
    for (line, variable) in rows {
        let text = format!("s SATISFIABLE\n{line}\n");
        assert_eq!(read(3, &text), (refused(19, variable), vec![77; 3]), "{line}");
    }
}

#[test]
fn form_comes_before_variables_and_these_before_the_length() {
    let mut model = [77; 4];
    assert_eq!(read_reply(3, b"s SATISFIABLE\nv 1 1 0", &mut model), refused(18, 21));
    assert_eq!(read_reply(3, b"s SATISFIABLE\nv 1 1 0\n", &mut model), refused(19, 1));
    assert_eq!(read_reply(3, b"s SATISFIABLE\nv 1 2 3 0\n", &mut model), refused(11, 3));
    assert_eq!(read_reply(3, b"s SATISFIABLE\nv 1 2 3 0\n", &mut model[..2]), refused(11, 3));
    assert_eq!(model, [77; 4]);
}

#[test]
fn any_number_of_variables_is_taken() {
    let most = u32::MAX;
    let text = format!("s SATISFIABLE\nv 1 -{most} {most} 0\n");
    assert_eq!(read_reply(most, text.as_bytes(), &mut []), refused(19, 2));
    assert_eq!(read_reply(most - 1, text.as_bytes(), &mut []), refused(18, 18));
    assert_eq!(read_reply(most, b"s UNSATISFIABLE\n", &mut []), Ok(Reply::None));
}
