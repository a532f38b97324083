//! The five operations of the base: Size, Compile, Decode, Judge and Image.

use crate::board::Board;
use crate::clauses::{clause_list, numbers_of};
use crate::counting::{count, Sizes};
use crate::numbering::Numbering;
use crate::reading::read;
use crate::refusal::{refuse_if, Refusal};

/// The board and its three numbers: what all operations do first.
pub(crate) fn opened(record: &[u8]) -> Result<(Board, Sizes), Refusal> {
    let board = read(record)?;
    let sizes = count(&board)?;
    Ok((board, sizes))
}

/// Size: N, M and K.
pub fn size(record: &[u8]) -> Result<Sizes, Refusal> {
    Ok(opened(record)?.1)
}

/// Compile: writes the clause list to the first K places of the lent list.
pub fn compile(record: &[u8], list: &mut [i32]) -> Result<Sizes, Refusal> {
    let (board, sizes) = opened(record)?;
    let length = sizes.numbers as usize;
    refuse_if(list.len() < length, 10, length)?;
    list[..length].copy_from_slice(&numbers_of(&board));
    Ok(sizes)
}

/// Decode: writes the values and Boolean bytes of a model.
pub fn decode(
    record: &[u8],
    model: &[u8],
    values: &mut [i32],
    booleans: &mut [u8],
) -> Result<(), Refusal> {
    let (board, sizes) = opened(record)?;
    has_length(model.len(), sizes.variables as usize)?;
    has_length(values.len(), board.variables.len())?;
    has_length(booleans.len(), board.booleans)?;
    are_bits(model)?;
    for (number, clause) in clause_list(&board).iter().enumerate() {
        let holds = clause.iter().any(|&literal| literal_holds(model, literal));
        refuse_if(!holds, 13, number)?;
    }
    let numbering = Numbering::of(&board);
    for (x, value) in values.iter_mut().enumerate() {
        *value = read_back(&board, &numbering, model, x);
    }
    booleans.copy_from_slice(&model[..board.booleans]);
    Ok(())
}

/// Judge: accepts exactly a solution.
pub fn judge(record: &[u8], values: &[i32], booleans: &[u8]) -> Result<(), Refusal> {
    let (board, _) = opened(record)?;
    has_length(values.len(), board.variables.len())?;
    has_length(booleans.len(), board.booleans)?;
    is_solution(&board, values, booleans)
}

/// Image: as Judge, and writes the plain model of the solution.
pub fn image(
    record: &[u8],
    values: &[i32],
    booleans: &[u8],
    model: &mut [u8],
) -> Result<(), Refusal> {
    let (board, sizes) = opened(record)?;
    has_length(values.len(), board.variables.len())?;
    has_length(booleans.len(), board.booleans)?;
    has_length(model.len(), sizes.variables as usize)?;
    is_solution(&board, values, booleans)?;
    model.copy_from_slice(&plain_model(&board, values, booleans));
    Ok(())
}

fn has_length(length: usize, wanted: usize) -> Result<(), Refusal> {
    refuse_if(length != wanted, 11, wanted)
}

pub(crate) fn are_bits(bytes: &[u8]) -> Result<(), Refusal> {
    for (index, &byte) in bytes.iter().enumerate() {
        refuse_if(byte > 1, 12, index)?;
    }
    Ok(())
}

fn literal_holds(model: &[u8], literal: i32) -> bool {
    let byte = model[literal.unsigned_abs() as usize - 1];
    if literal > 0 {
        byte == 1
    } else {
        byte == 0
    }
}

/// The least c within bounds whose p(x, c) is true; the axioms promise one.
fn read_back(board: &Board, numbering: &Numbering, model: &[u8], x: usize) -> i32 {
    let bounds = board.variables[x];
    let least = (bounds.lower..=bounds.upper)
        .find(|&c| literal_holds(model, numbering.bound(board, x, c)))
        .expect("the axioms hold");
    least as i32
}

fn is_solution(board: &Board, values: &[i32], booleans: &[u8]) -> Result<(), Refusal> {
    are_bits(booleans)?;
    for (index, bounds) in board.variables.iter().enumerate() {
        let value = i64::from(values[index]);
        refuse_if(value < bounds.lower || value > bounds.upper, 14, index)?;
    }
    for (number, clause) in board.clauses.iter().enumerate() {
        refuse_if(!clause.holds(values, booleans), 13, number)?;
    }
    Ok(())
}

/// The model in which every number is true exactly when what it stands for holds.
pub fn plain_model(board: &Board, values: &[i32], booleans: &[u8]) -> Vec<u8> {
    let mut model = booleans.to_vec();
    for (bounds, &value) in board.variables.iter().zip(values) {
        for c in bounds.lower - 1..=bounds.upper {
            model.push(u8::from(i64::from(value) <= c));
        }
    }
    for clause in board.clauses.iter().filter(|clause| clause.has_selectors()) {
        for comparison in clause.comparisons() {
            model.push(u8::from(comparison.holds(values)));
        }
    }
    model
}
