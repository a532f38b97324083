//! The strong peer, the library and the second program on drawn records: equal answers, and equal lent lists.

use bench::programs::{Answer, Desk, Library, Operation, Program, Second, Strong};
use bench::strong::{self, Refused};
use second::board::Board;
use second::boards::{ceiling, dice::Dice, drawn};
use second::operations::plain_model;
use std::collections::BTreeSet;

const RECORDS: u64 = 8_000;
/// Longer lists are not written, only foretold.
const LONGEST_LIST: usize = 1_000_000;
/// Nothing is asked about the text of a longer list.
const LONGEST_LIST_AS_TEXT: usize = 50_000;
/// What lent lists hold before: numbers that no operation writes.
const KEPT: i32 = i32::MIN;
const KEPT_BYTE: u8 = 7;

/// Everything that is asked about the record of a seed.
fn questions(seed: u64) -> Vec<(Operation, Desk)> {
    let mut dice = Dice::new(seed);
    let record = match seed % 400 {
        0 => ceiling::around(&mut dice).record,
        _ => drawn(seed).record,
    };
    let sizes = second::size(&record).ok();
    let numbers = sizes.map_or(0, |sizes| sizes.numbers as usize);
    let length = if numbers > LONGEST_LIST { 0 } else { numbers };
    let with_list =
        |places| Desk { record: record.clone(), list: vec![KEPT; places], ..Desk::default() };
    let mut questions = vec![
        (Operation::Size, with_list(0)),
        (Operation::Compile, with_list(length + 1)),
        (Operation::Compile, with_list(length.saturating_sub(1))),
    ];
    if numbers <= LONGEST_LIST_AS_TEXT {
        questions.extend(about_text(&record));
    }
    if let (1.., Ok(board)) = (length, second::reading::read(&record)) {
        for _ in 0..3 {
            questions.extend(about_values(&mut dice, &record, &board));
        }
    }
    questions
}

/// WriteText into a byte more than it takes, and into one less.
fn about_text(record: &[u8]) -> [(Operation, Desk); 2] {
    let length = text_length(record);
    [length + 1, length.saturating_sub(1)].map(|bytes| {
        let text = vec![KEPT_BYTE; bytes];
        (Operation::WriteText, Desk { record: record.to_vec(), text, ..Desk::default() })
    })
}

/// What refusal 10 tells of no bytes, and 0 of a record that is refused.
fn text_length(record: &[u8]) -> usize {
    match strong::write_text(record, &mut []) {
        Err(Refused { number: 10, detail }) => detail as usize,
        _ => 0,
    }
}

/// Judge and Image of drawn values, and Decode of their plain model with some bytes changed.
fn about_values(dice: &mut Dice, record: &[u8], board: &Board) -> [(Operation, Desk); 3] {
    let values = board.variables.iter();
    let values = values.map(|bounds| dice.between(bounds.lower, bounds.upper) as i32).collect();
    let booleans = (0..board.booleans).map(|_| dice.below(2) as u8).collect();
    let mut judged = Desk { record: record.to_vec(), values, booleans, ..Desk::default() };
    judged.model = plain_model(board, &judged.values, &judged.booleans);
    let mut decoded = judged.clone();
    for _ in 0..dice.pick(&[0, 1, 1, 3]) {
        spoil_byte(dice, &mut decoded.model);
    }
    spoil_length(dice, &mut decoded.model);
    decoded.values.fill(KEPT);
    decoded.booleans.fill(KEPT_BYTE);
    if dice.one_in(10) && !judged.values.is_empty() {
        let index = dice.below(judged.values.len());
        judged.values[index] += dice.pick(&[-10_000, -1, 1, 10_000]);
    }
    if dice.one_in(20) {
        spoil_byte(dice, &mut judged.booleans);
    }
    judged.model.fill(KEPT_BYTE);
    let mut imaged = judged.clone();
    spoil_length(dice, &mut imaged.model);
    [(Operation::Judge, judged), (Operation::Image, imaged), (Operation::Decode, decoded)]
}

/// Mostly another bit, and mostly among the last, where the selectors are.
fn spoil_byte(dice: &mut Dice, bytes: &mut [u8]) {
    if let Some(last) = bytes.len().checked_sub(1) {
        let any = dice.below(bytes.len());
        let index = dice.pick(&[any, last, last.saturating_sub(1)]);
        bytes[index] = if dice.one_in(20) { 2 } else { 1 - bytes[index].min(1) };
    }
}

fn spoil_length(dice: &mut Dice, bytes: &mut Vec<u8>) {
    if dice.one_in(30) {
        bytes.push(0);
    }
}

fn answered(program: &dyn Program, question: &(Operation, Desk)) -> (Answer, Desk) {
    let mut desk = question.1.clone();
    let answer = program.run(question.0, &mut desk);
    (answer, desk)
}

/// The first seed on which two programs differ, and the operation.
fn first_difference(one: &dyn Program, other: &dyn Program) -> Option<(u64, Operation)> {
    for seed in 0..RECORDS {
        let both = |operation| one.does(operation) && other.does(operation);
        for question in questions(seed).into_iter().filter(|question| both(question.0)) {
            if answered(one, &question) != answered(other, &question) {
                return Some((seed, question.0));
            }
        }
    }
    None
}

#[test]
fn the_strong_peer_and_the_library_are_equal() {
    assert_eq!(first_difference(&Strong, &Library), None);
}

#[test]
fn the_strong_peer_and_the_second_program_are_equal() {
    assert_eq!(first_difference(&Strong, &Second), None);
}

/// What the other tests compare: enough of every answer of every operation.
#[test]
fn the_drawn_records_meet_every_refusal_and_many_lists() {
    let mut refusals = BTreeSet::new();
    let mut accepted = [0; 6];
    for question in (0..RECORDS).flat_map(questions) {
        let (answer, _) = answered(&Strong, &question);
        refusals.insert(answer[0]);
        accepted[question.0 as usize] += u64::from(answer[0] == 0);
    }
    assert_eq!(refusals, BTreeSet::from_iter(0..=17));
    assert!(accepted.iter().all(|&count| count > 1_000), "accepted: {accepted:?}");
}

/// The strong peer with one operation a little wrong.
struct Wrong(Operation);

impl Program for Wrong {
    fn name(&self) -> &'static str {
        "wrong"
    }

    fn does(&self, operation: Operation) -> bool {
        Strong.does(operation)
    }

    fn run(&self, operation: Operation, desk: &mut Desk) -> Answer {
        let mut answer = Strong.run(operation, desk);
        match (operation == self.0, operation, answer[0]) {
            (true, Operation::Size, 7) => answer[1] += 1,
            (true, Operation::Judge, 13) => answer[1] += 1,
            (true, Operation::Compile, 0) if desk.list.len() > 500 => desk.list[500] += 1,
            (true, Operation::Decode, 0) if desk.values.len() > 3 => desk.values[3] += 1,
            (true, Operation::Image, 0) if desk.model.len() > 50 => desk.model[50] ^= 1,
            (true, Operation::WriteText, 0) if desk.text.len() > 500 => desk.text[500] ^= 1,
            _ => {}
        }
        answer
    }
}

#[test]
fn a_wrong_number_and_a_wrong_detail_are_found() {
    for operation in Operation::ALL.into_iter().filter(|&operation| Strong.does(operation)) {
        let found = first_difference(&Wrong(operation), &Library);
        assert_eq!(found.map(|(_, where_found)| where_found), Some(operation));
    }
}
