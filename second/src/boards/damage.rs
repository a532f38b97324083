//! Damaged records: each way of damage leads to one of the refusals from 1 to 8 and from 15 to 17.

use super::dice::Dice;
use super::sound::common;
use super::writing::{state_length, written, Field, Mark, Written};
use super::Drawn;
use crate::board::Board;
use crate::reading::LONGEST_RECORD;

type Way = (&'static str, fn(&mut Dice) -> Vec<u8>);

/// Every kind of field of the body.
pub const FIELDS: [Field; 12] = [
    Field::VariableCount,
    Field::BooleanCount,
    Field::ClauseCount,
    Field::Lower,
    Field::Upper,
    Field::LiteralCount,
    Field::Kind,
    Field::BooleanNumber,
    Field::TermCount,
    Field::Coefficient,
    Field::Variable,
    Field::Constant,
];

const WAYS: [Way; 14] = [
    ("two bad fields", two_bad_fields),
    ("bounds crossed", bounds_crossed),
    ("variable repeated", variable_repeated),
    ("cut, length kept", cut_length_kept),
    ("fewer than 5 bytes", few_bytes),
    ("bytes left over", bytes_left_over),
    ("bytes added, length kept", bytes_added_length_kept),
    ("stated length", wrong_length),
    ("version", wrong_version),
    ("count off by one", count_off_by_one),
    ("one byte changed", one_byte_changed),
    ("one byte in or out", one_byte_in_or_out),
    ("noise", noise),
    ("above the greatest length", too_long),
];

/// A damaged record; the long ones are drawn seldom.
pub fn damaged(dice: &mut Dice) -> Drawn {
    let field = dice.pick(&FIELDS);
    match dice.below(4) {
        0 => Drawn {
            record: bad_field(dice, field),
            way: format!("bad {field:?}"),
        },
        1 => Drawn {
            record: cut_in_a_field(dice, field),
            way: format!("cut in {field:?}"),
        },
        _ => otherwise_damaged(dice),
    }
}

fn otherwise_damaged(dice: &mut Dice) -> Drawn {
    let (way, draw) = if dice.one_in(200) {
        WAYS[WAYS.len() - 1]
    } else {
        dice.pick(&WAYS[..WAYS.len() - 1])
    };
    Drawn {
        record: draw(dice),
        way: way.to_string(),
    }
}

/// A board's record that has a field of this kind.
fn with_field(dice: &mut Dice, field: Field) -> (Board, Written) {
    loop {
        let board = common(dice);
        let written = written(&board);
        if written.marks.iter().any(|mark| mark.field == field) {
            return (board, written);
        }
    }
}

fn pick_mark(dice: &mut Dice, written: &Written, field: Field) -> Mark {
    let marks = written.marks.iter();
    let marks: Vec<Mark> = marks.filter(|mark| mark.field == field).copied().collect();
    dice.pick(&marks)
}

/// Values that a field must not have, and the number of the refusal.
pub fn bad_values(board: &Board, field: Field) -> (u8, Vec<i64>) {
    let variables = board.variables.len() as i64;
    let booleans = board.booleans as i64;
    match field {
        Field::VariableCount => (4, vec![1_025, 1_026, 32_768, 65_535]),
        Field::BooleanCount => (4, vec![4_097, 4_098, 32_768, 65_535]),
        Field::ClauseCount => (4, vec![4_097, 5_000, 32_768, 65_535]),
        Field::Lower | Field::Upper => (5, vec![-4_097, 4_096, -32_768, 32_767]),
        Field::LiteralCount => (4, vec![65, 66, 128, 255]),
        Field::Kind => (6, vec![3, 4, 128, 255]),
        Field::BooleanNumber => (6, vec![0, booleans + 1, 32_769, 65_535]),
        Field::TermCount => (4, vec![0, 4, 128, 255]),
        Field::Coefficient => (7, vec![0, 65, -65, 127, -128]),
        Field::Variable => (15, vec![variables, variables + 1, 32_768, 65_535]),
        Field::Constant => (
            17,
            vec![1_000_001, -1_000_001, i32::MIN as i64, i32::MAX as i64],
        ),
    }
}

fn spoil(dice: &mut Dice, board: &Board, written: &mut Written, field: Field) {
    let mark = pick_mark(dice, written, field);
    let value = dice.pick(&bad_values(board, field).1);
    written.overwrite(mark, value);
}

fn bad_field(dice: &mut Dice, field: Field) -> Vec<u8> {
    let (board, mut written) = with_field(dice, field);
    spoil(dice, &board, &mut written, field);
    written.record
}

fn two_bad_fields(dice: &mut Dice) -> Vec<u8> {
    let field = dice.pick(&FIELDS);
    let (board, mut written) = with_field(dice, field);
    spoil(dice, &board, &mut written, field);
    let other = dice.pick(&written.marks).field;
    spoil(dice, &board, &mut written, other);
    match dice.below(4) {
        0 => written.record[0] = dice.pick(&[0, 2, 9]),
        1 => written.record.push(0),
        2 => state_length(&mut written.record),
        _ => {}
    }
    written.record
}

fn bounds_crossed(dice: &mut Dice) -> Vec<u8> {
    let (board, mut written) = with_field(dice, Field::Upper);
    let x = dice.below(board.variables.len());
    let marks = written.marks.iter();
    let mark = *marks.filter(|m| m.field == Field::Upper).nth(x).unwrap();
    let upper = board.variables[x].lower - dice.pick(&[1, 1, 2, 30]);
    written.overwrite(mark, upper);
    written.record
}

/// Copies a variable number of a comparison to a later term of it.
fn variable_repeated(dice: &mut Dice) -> Vec<u8> {
    loop {
        let (_, mut written) = with_field(dice, Field::Variable);
        let marks = written.marks.clone();
        let is_variable = |at: usize| marks[at].field == Field::Variable;
        let later = (2..marks.len()).filter(|&at| is_variable(at) && is_variable(at - 2));
        let later: Vec<usize> = later.collect();
        if later.is_empty() {
            continue;
        }
        let at = dice.pick(&later);
        let from = if is_variable(at - 4) && dice.one_in(2) {
            marks[at - 4].place
        } else {
            marks[at - 2].place
        };
        written.record.copy_within(from..from + 2, marks[at].place);
        return written.record;
    }
}

fn cut_in_a_field(dice: &mut Dice, field: Field) -> Vec<u8> {
    let (_, mut written) = with_field(dice, field);
    let mark = pick_mark(dice, &written, field);
    written.record.truncate(mark.place + dice.below(mark.width));
    state_length(&mut written.record);
    written.record
}

fn cut_length_kept(dice: &mut Dice) -> Vec<u8> {
    let mut record = written(&common(dice)).record;
    record.truncate(dice.below(record.len()));
    record
}

fn few_bytes(dice: &mut Dice) -> Vec<u8> {
    let mut record = written(&common(dice)).record;
    record.truncate(dice.below(6));
    if let Some(version) = record.first_mut() {
        *version = dice.pick(&[1, 1, 2]);
    }
    record
}

fn bytes_left_over(dice: &mut Dice) -> Vec<u8> {
    let mut record = written(&common(dice)).record;
    add_bytes(dice, &mut record, 3);
    state_length(&mut record);
    record
}

fn bytes_added_length_kept(dice: &mut Dice) -> Vec<u8> {
    let mut record = written(&common(dice)).record;
    add_bytes(dice, &mut record, 3);
    record
}

/// Adds from one byte to so many.
fn add_bytes(dice: &mut Dice, record: &mut Vec<u8>, most: i64) {
    for _ in 0..dice.between(1, most) {
        record.push(dice.byte());
    }
}

fn wrong_length(dice: &mut Dice) -> Vec<u8> {
    let mut record = written(&common(dice)).record;
    let body = record.len() as u32 - 5;
    let random = dice.roll() as u32;
    let wrong = [body + 1, body - 1, body + 5, 0, u32::MAX, random, body << 8];
    let stated = dice.pick(&wrong);
    record[1..5].copy_from_slice(&stated.to_be_bytes());
    record
}

fn wrong_version(dice: &mut Dice) -> Vec<u8> {
    let mut record = written(&common(dice)).record;
    record[0] = dice.pick(&[0, 2, 9, 128, 255]);
    if dice.one_in(3) {
        record.push(0);
    }
    record
}

fn count_off_by_one(dice: &mut Dice) -> Vec<u8> {
    let counts = [
        Field::VariableCount,
        Field::BooleanCount,
        Field::ClauseCount,
        Field::LiteralCount,
        Field::TermCount,
    ];
    let field = dice.pick(&counts);
    let (_, mut written) = with_field(dice, field);
    let mark = pick_mark(dice, &written, field);
    let byte = &mut written.record[mark.place + mark.width - 1];
    *byte = byte.wrapping_add(dice.pick(&[1, 255]));
    written.record
}

fn one_byte_changed(dice: &mut Dice) -> Vec<u8> {
    let mut record = written(&common(dice)).record;
    let at = dice.below(record.len());
    record[at] = dice.byte();
    record
}

fn one_byte_in_or_out(dice: &mut Dice) -> Vec<u8> {
    let mut record = written(&common(dice)).record;
    let at = 5 + dice.below(record.len() - 5);
    if dice.one_in(2) {
        record.remove(at);
    } else {
        record.insert(at, dice.byte());
    }
    state_length(&mut record);
    record
}

/// Random bytes, mostly small ones, mostly behind a sound head.
fn noise(dice: &mut Dice) -> Vec<u8> {
    let mut record = vec![1, 0, 0, 0, 0];
    for _ in 0..dice.between(0, 60) {
        let small = dice.pick(&[0, 0, 0, 1, 2]);
        let byte = dice.byte();
        record.push(dice.pick(&[small, small, small, byte]));
    }
    if !dice.one_in(10) {
        state_length(&mut record);
    }
    record
}

fn too_long(dice: &mut Dice) -> Vec<u8> {
    let mut record = written(&common(dice)).record;
    let length = LONGEST_RECORD + dice.pick(&[1, 1, 2, 1_000]);
    record.resize(length, dice.pick(&[0, 1]));
    if dice.one_in(2) {
        state_length(&mut record);
    }
    record[0] = dice.pick(&[1, 1, 2]);
    record
}
