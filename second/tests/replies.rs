//! Replies in: P2 of document 02 and its settled readings.

use second::{read_reply, Refusal, Reply};

fn refused<T>(number: u8, detail: u64) -> Result<T, Refusal> {
    Err(Refusal { number, detail })
}

/// What reading into N bytes leads to; a refusal and 'none' keep them.
fn reading(variables: u32, text: &str) -> Result<Reply, Refusal> {
    let mut model = vec![9; variables.min(20) as usize];
    let result = read_reply(variables, text.as_bytes(), &mut model);
    let kept = model.iter().all(|&byte| byte == 9);
    assert!(result == Ok(Reply::Model) || kept, "{text:?}");
    result
}

/// The model of lines behind `s SATISFIABLE`.
fn model(variables: usize, lines: &str) -> Vec<u8> {
    let mut model = vec![9; variables];
    let text = format!("s SATISFIABLE\n{lines}");
    let result = read_reply(variables as u32, text.as_bytes(), &mut model);
    assert_eq!(result, Ok(Reply::Model), "{lines:?}");
    model
}

/// Lines behind `s SATISFIABLE` are bad at this offset among them.
fn bad_at(variables: u32, lines: &str, place: usize) {
    let first = "s SATISFIABLE\n";
    let detail = (first.len() + place) as u64;
    let result = reading(variables, &format!("{first}{lines}"));
    assert_eq!(result, refused(18, detail), "{lines:?}");
}

/// Lines that stop too early.
fn bad_at_the_end(variables: u32, lines: &str) {
    bad_at(variables, lines, lines.len());
}

/// Lines in which this variable is the least that does not stand once.
fn not_once(variables: u32, lines: &str, least: u64) {
    let result = reading(variables, &format!("s SATISFIABLE\n{lines}"));
    assert_eq!(result, refused(19, least), "{lines:?}");
}

#[test]
fn a_model_in_lines_of_any_length_and_order() {
    assert_eq!(model(3, "v 1 -2 3 0\n"), [1, 0, 1]);
    assert_eq!(model(3, "v 1\nv -2 3\nv 0\n"), [1, 0, 1]);
    assert_eq!(model(3, "v 3\nv -2\nv 1 0\n"), [1, 0, 1]);
    assert_eq!(model(3, "v -2 -3 -1 0\n"), [0, 0, 0]);
    let ten = "v -10 9 -8 7 -6 5\nv -4 3 -2 1 0\n";
    assert_eq!(model(10, ten), [1, 0, 1, 0, 1, 0, 1, 0, 1, 0]);
    assert_eq!(model(0, "v 0\n"), []);
}

#[test]
fn none_needs_neither_19_nor_11() {
    for length in [0, 1, 2, 9] {
        let mut model = vec![9; length];
        let result = read_reply(2, b"s UNSATISFIABLE\n", &mut model);
        assert_eq!(result, Ok(Reply::None));
        assert_eq!(model, vec![9; length]);
    }
    let none = "s UNSATISFIABLE\n";
    assert_eq!(reading(0, none), Ok(Reply::None));
    assert_eq!(reading(u32::MAX, none), Ok(Reply::None));
}

#[test]
fn none_stands_alone() {
    assert_eq!(reading(1, "s UNSATISFIABLE"), refused(18, 15));
    assert_eq!(reading(1, "s UNSATISFIABLE \n"), refused(18, 15));
    assert_eq!(reading(1, "s UNSATISFIABLE\n\n"), refused(18, 16));
    assert_eq!(reading(1, "s UNSATISFIABLE\nv 0\n"), refused(18, 16));
    assert_eq!(reading(1, "s UNSATISFIABLY\n"), refused(18, 14));
    assert_eq!(reading(1, "s UN"), refused(18, 4));
}

#[test]
fn the_first_line() {
    assert_eq!(reading(1, ""), refused(18, 0));
    assert_eq!(reading(1, "s"), refused(18, 1));
    assert_eq!(reading(1, "s "), refused(18, 2));
    assert_eq!(reading(1, "s UNKNOWN\n"), refused(18, 4));
    assert_eq!(reading(1, "s  SATISFIABLE\nv 1 0\n"), refused(18, 2));
    assert_eq!(reading(1, "s SATISFIABLE"), refused(18, 13));
    assert_eq!(reading(1, "s SATISFIABLE \nv 1 0\n"), refused(18, 13));
    assert_eq!(reading(1, "s SATISFIABLE\r\nv 1 0\n"), refused(18, 13));
    assert_eq!(reading(1, "s satisfiable\nv 1 0\n"), refused(18, 2));
    assert_eq!(reading(1, "c\ns SATISFIABLE\nv 1 0\n"), refused(18, 0));
    assert_eq!(reading(1, "v 1 0\n"), refused(18, 0));
}

#[test]
fn every_line_ends_with_a_newline() {
    bad_at_the_end(1, "v 1 0");
    bad_at_the_end(2, "v 1");
    bad_at_the_end(2, "v 1\n");
    bad_at_the_end(2, "v 1\nv");
    bad_at_the_end(2, "v -");
    bad_at_the_end(1, "");
}

#[test]
fn after_the_0_only_the_newline_and_the_end() {
    bad_at(2, "v 1 0 2", 5);
    bad_at(2, "v 1 0 \n", 5);
    bad_at(2, "v 1 0\nv 2 0\n", 6);
    bad_at(2, "v 1 0\n\n", 6);
    bad_at(2, "v 1 2 0\nv\n", 8);
    bad_at(2, "v 1 2 00\n", 7);
}

#[test]
fn lines_of_v_and_numbers_after_one_space_each() {
    bad_at(2, "v  1 2 0\n", 2);
    bad_at(2, "v 1  2 0\n", 4);
    bad_at(2, "v 1 \nv 2 0\n", 4);
    bad_at(2, "v\nv 1 2 0\n", 1);
    bad_at(2, "v \nv 1 2 0\n", 2);
    bad_at(2, "\nv 1 2 0\n", 0);
    bad_at(2, "v 1\n\nv 2 0\n", 4);
    bad_at(2, "v 1\n2 0\n", 4);
    bad_at(2, "v 1\nc\nv 2 0\n", 4);
    bad_at(2, "v1 2 0\n", 1);
    bad_at(2, "v 1\t2 0\n", 3);
    bad_at(2, "v 1 2 0\r\n", 7);
    bad_at(2, "s SATISFIABLE\n", 0);
}

#[test]
fn numbers_as_in_clause_text() {
    bad_at(2, "v 3 1 2 0\n", 2);
    bad_at(2, "v 1 -3 0\n", 4);
    bad_at(2, "v 1 20x\n", 4);
    bad_at(2, "v -0\n", 3);
    bad_at(2, "v 01 2 0\n", 3);
    bad_at(2, "v -01 2 0\n", 3);
    bad_at(2, "v +1 2 0\n", 2);
    bad_at(2, "v 1-2 0\n", 3);
    bad_at(0, "v -", 2);
    bad_at(0, "v 1 0\n", 2);
    bad_at(2, "v 4294967297 2 0\n", 2);
    bad_at(2, "v 18446744073709551617 2 0\n", 2);
}

#[test]
fn a_variable_missing_or_twice() {
    not_once(2, "v 1 0\n", 2);
    not_once(2, "v 2 0\n", 1);
    not_once(2, "v 0\n", 1);
    not_once(3, "v 3 1 3 2 0\n", 3);
    not_once(3, "v 3 2 1 -2 0\n", 2);
    not_once(3, "v 3 3 3 0\n", 1);
    not_once(4, "v 1 3 3 4 0\n", 2);
    not_once(4, "v 2 1 2 4 0\n", 2);
}

#[test]
fn any_n_of_32_bits() {
    not_once(u32::MAX, "v 1 2 0\n", 3);
    not_once(u32::MAX, "v 4294967295 -1 0\n", 2);
    not_once(1 << 31, "v -2147483648 0\n", 1);
    bad_at(u32::MAX, "v 1 4294967296 0\n", 4);
    bad_at(u32::MAX, "v 1 -42949672950 0\n", 4);
}

#[test]
fn the_order_is_18_then_19_then_11() {
    let read = |text: &[u8], length: usize| read_reply(2, text, &mut vec![9; length]);
    assert_eq!(read(b"s SATISFIABLE\nv 1 0\nx", 1), refused(18, 20));
    assert_eq!(read(b"s SATISFIABLE\nv 1 1 0\n", 1), refused(19, 1));
    assert_eq!(read(b"s SATISFIABLE\nv 1 2 0\n", 1), refused(11, 2));
    assert_eq!(read(b"s SATISFIABLE\nv 1 2 0\n", 3), refused(11, 2));
    assert_eq!(read(b"s SATISFIABLE\nv 1 2 0\n", 0), refused(11, 2));
    assert_eq!(read(b"s SATISFIABLE\nv 1 2 0\n", 2), Ok(Reply::Model));
}

#[test]
fn a_refusal_keeps_a_longer_model() {
    let mut model = [9; 3];
    let text = b"s SATISFIABLE\nv 1 2 0\n";
    assert_eq!(read_reply(2, text, &mut model), refused(11, 2));
    assert_eq!(model, [9; 3]);
}
