//! The calls that are tried on one record: lengths, models, values and Booleans.

use crate::assignments::Assignment;
use crate::both::{After, Both, Compared};
use crate::closing_tries::{self, any_replies, unknown};
use crate::demand;
use crate::first::Answer;
use crate::least;
use crate::reply_tries;
use crate::tally::Operation;
use crate::text_tries;
use second::board::Board;
use second::boards::dice::Dice;
use second::operations::plain_model;
use second::reading::read;

/// Lists longer than this are not compiled, only refused.
const LONG_LIST: u64 = 1_000_000;

/// All tries on one record.
pub fn all(both: &mut Both, dice: &mut Dice) -> Compared<()> {
    let answer = both.size()?;
    let [number, variables, _, numbers] = answer;
    if number != 0 {
        return on_refused_record(both, dice, answer);
    }
    let board = read(both.record).expect("both programs accepted it");
    if numbers > LONG_LIST {
        return on_long_list(both, dice, &board);
    }
    let (variables, numbers) = (variables as usize, numbers as usize);
    let solutions = some_solutions(dice, &board);
    let compiled = compile_tries(both, dice, numbers)?;
    decode_tries(both, dice, &board, &solutions)?;
    length_tries(both, dice, &board, variables)?;
    judge_tries(both, dice, &board, variables, &solutions)?;
    if demand::is_due(dice, variables, numbers) {
        demand::check(both, &board, variables, numbers)?;
    }
    if least::is_due(&board) {
        least::check(both, &board)?;
    }
    closing_tries::all(both, dice, &board)?;
    text_tries::all(both, dice, &compiled)?;
    let solution = solutions.first();
    let model = solution.map(|(values, booleans)| plain_model(&board, values, booleans));
    reply_tries::all(both, dice, model)
}

/// All operations refuse a record alike, whatever is lent.
fn on_refused_record(both: &mut Both, dice: &mut Dice, size: Answer) -> Compared<()> {
    let model = vec![dice.byte(); dice.below(4)];
    let values = vec![dice.roll() as i32; dice.below(4)];
    let booleans = vec![dice.byte(); dice.below(4)];
    let answers = [
        both.compile(dice.below(4))?.answer,
        both.decode(&model, values.len(), booleans.len())?.answer,
        both.judge(&values, &booleans)?.answer,
        both.image(&values, &booleans, model.len())?.answer,
        both.closing(dice.below(4), &any_replies(dice))?.answer,
        both.closing(unknown(dice, 1), &any_replies(dice))?.answer,
        both.write_text(dice.below(40))?.answer,
    ];
    if answers.iter().any(|answer| *answer != size) {
        let what = format!("size answers {size:?}, the others {answers:?}");
        return Err(both.differs(Operation::Size, what));
    }
    Ok(())
}

/// Few tries, each of which ends before a long list is written.
fn on_long_list(both: &mut Both, dice: &mut Dice, board: &Board) -> Compared<()> {
    let (values, booleans) = within_bounds(dice, board);
    both.compile(dice.below(100))?;
    both.decode(&[], values.len(), booleans.len())?;
    both.judge(&values, &booleans)?;
    both.image(&values, &booleans, dice.below(100))?;
    closing_tries::all(both, dice, board)
}

fn compile_tries(both: &mut Both, dice: &mut Dice, numbers: usize) -> Compared<After> {
    let compiled = both.compile(numbers)?;
    both.compile(numbers + 1 + dice.below(9))?;
    if numbers > 0 {
        both.compile(numbers - 1)?;
        both.compile(dice.below(numbers))?;
    }
    Ok(compiled)
}

fn decode_tries(
    both: &mut Both,
    dice: &mut Dice,
    board: &Board,
    solutions: &[Assignment],
) -> Compared<()> {
    let mut models = Vec::new();
    for (values, booleans) in solutions {
        models.push(plain_model(board, values, booleans));
    }
    for _ in 0..2 {
        let (values, booleans) = within_bounds(dice, board);
        models.push(plain_model(board, &values, &booleans));
    }
    for at in 0..models.len() {
        let plain = models[at].clone();
        models.push(flipped(dice, &plain));
        models.push(other_selectors(dice, board, &plain));
        models.push(spoiled(dice, &plain));
    }
    let length = models[0].len();
    models.push((0..length).map(|_| dice.byte() & 1).collect());
    models.push((0..length).map(|_| dice.byte()).collect());
    for model in models {
        both.decode(&model, board.variables.len(), board.booleans)?;
    }
    Ok(())
}

/// The bytes with one of them turned from 0 to 1 or back.
fn flipped(dice: &mut Dice, bytes: &[u8]) -> Vec<u8> {
    let mut bytes = bytes.to_vec();
    if !bytes.is_empty() {
        let at = dice.below(bytes.len());
        bytes[at] ^= 1;
    }
    bytes
}

/// The bytes with one or two of them from 2 to 255.
pub fn spoiled(dice: &mut Dice, bytes: &[u8]) -> Vec<u8> {
    let mut bytes = bytes.to_vec();
    if !bytes.is_empty() {
        for _ in 0..dice.between(1, 2) {
            let at = dice.below(bytes.len());
            bytes[at] = dice.between(2, 255) as u8;
        }
    }
    bytes
}

/// The model with its selectors, and now and then its Booleans, drawn anew.
fn other_selectors(dice: &mut Dice, board: &Board, model: &[u8]) -> Vec<u8> {
    let mut model = model.to_vec();
    let clauses = board.clauses.iter().filter(|clause| clause.has_selectors());
    let selectors: usize = clauses.map(|clause| clause.comparisons().count()).sum();
    let first = model.len() - selectors;
    for byte in &mut model[first..] {
        *byte = dice.byte() & 1;
    }
    if dice.one_in(4) {
        for byte in &mut model[..board.booleans] {
            *byte = dice.byte() & 1;
        }
    }
    model
}

/// Lengths that are wrong, one or several at once, over bytes good and bad.
fn length_tries(both: &mut Both, dice: &mut Dice, board: &Board, variables: usize) -> Compared<()> {
    for _ in 0..4 {
        let model = vec![dice.pick(&[0, 1, 2]); near(dice, variables)];
        let values = near(dice, board.variables.len());
        let booleans = near(dice, board.booleans);
        both.decode(&model, values, booleans)?;
        let values = vec![dice.pick(&[0, 9_999]); values];
        let booleans = vec![dice.pick(&[0, 1, 2]); booleans];
        both.judge(&values, &booleans)?;
        both.image(&values, &booleans, model.len())?;
    }
    Ok(())
}

/// A length: mostly as it is, or off by one, or 0.
pub fn near(dice: &mut Dice, length: usize) -> usize {
    match dice.below(6) {
        0 => length + 1,
        1 => length.saturating_sub(1),
        2 if dice.one_in(4) => 0,
        _ => length,
    }
}

fn judge_tries(
    both: &mut Both,
    dice: &mut Dice,
    board: &Board,
    variables: usize,
    solutions: &[Assignment],
) -> Compared<()> {
    let mut tries = solutions.to_vec();
    tries.push(within_bounds(dice, board));
    tries.push(at_bounds(dice, board));
    for at in 0..tries.len() {
        let (values, booleans) = tries[at].clone();
        let out = out_of_bounds(dice, board, &values);
        let bad = spoiled(dice, &booleans);
        tries.push((out.clone(), booleans.clone()));
        tries.push((values, bad.clone()));
        tries.push((out, bad));
        tries.push((tries[at].0.clone(), flipped(dice, &booleans)));
    }
    for (values, booleans) in tries {
        both.judge(&values, &booleans)?;
        both.image(&values, &booleans, variables)?;
    }
    Ok(())
}

fn within_bounds(dice: &mut Dice, board: &Board) -> Assignment {
    let mut values = Vec::new();
    for bounds in &board.variables {
        values.push(dice.between(bounds.lower, bounds.upper) as i32);
    }
    (values, random_bits(dice, board.booleans))
}

fn at_bounds(dice: &mut Dice, board: &Board) -> Assignment {
    let mut values = Vec::new();
    for bounds in &board.variables {
        values.push(dice.pick(&[bounds.lower, bounds.upper]) as i32);
    }
    (values, random_bits(dice, board.booleans))
}

pub fn random_bits(dice: &mut Dice, count: usize) -> Vec<u8> {
    (0..count).map(|_| dice.byte() & 1).collect()
}

/// The values with one or two of them outside, by one or by far.
fn out_of_bounds(dice: &mut Dice, board: &Board, values: &[i32]) -> Vec<i32> {
    let mut values = values.to_vec();
    if values.is_empty() {
        return values;
    }
    for _ in 0..dice.between(1, 2) {
        let at = dice.below(values.len());
        let below = board.variables[at].lower as i32 - 1;
        let above = board.variables[at].upper as i32 + 1;
        values[at] = dice.pick(&[below, above, below, above, i32::MIN, i32::MAX]);
    }
    values
}

/// Up to two solutions among some random assignments.
fn some_solutions(dice: &mut Dice, board: &Board) -> Vec<Assignment> {
    let mut found = Vec::new();
    for _ in 0..200 {
        let (values, booleans) = match dice.below(3) {
            0 => at_bounds(dice, board),
            _ => within_bounds(dice, board),
        };
        let mut clauses = board.clauses.iter();
        if clauses.all(|clause| clause.holds(&values, &booleans)) {
            found.push((values, booleans));
        }
        if found.len() == 2 {
            break;
        }
    }
    found
}
