//! A strong peer: the operations on a record as a careful engineer writes them by hand, with every check of 01.
//!
//! What makes it fast: first numbers are kept in a table, each rule's bytes are checked once, the last two terms of a
//! comparison are written as rows whose literals only step, and tuples are counted by a formula. Its Decode does not
//! look at every clause.

mod board;
mod counting;
mod decoding;
mod opening;
mod rows;
mod solutions;
mod text;
mod writing;

use board::Board;
use solutions::{check_bits, check_length, check_solution, write_plain_model};

/// N, M and K.
#[derive(Debug, Clone, Copy, Default, PartialEq, Eq)]
pub struct Sizes {
    pub variables: u64,
    pub clauses: u64,
    pub numbers: u64,
}

/// A refusal of 01 and its detail.
#[derive(Debug, Clone, Copy, PartialEq, Eq)]
pub struct Refused {
    pub number: u64,
    pub detail: u64,
}

/// Size: the three numbers, or one of refusals 1 to 9.
#[inline(never)]
pub fn size(record: &[u8]) -> Result<Sizes, Refused> {
    opening::open(&mut Board::of(record))
}

/// Compile: writes the clause list to the first K places of the lent list.
#[inline(never)]
pub fn compile(record: &[u8], list: &mut [i32]) -> Result<Sizes, Refused> {
    let mut board = Board::of(record);
    let sizes = opening::open(&mut board)?;
    if (list.len() as u64) < sizes.numbers {
        return Err(Refused { number: 10, detail: sizes.numbers });
    }
    // Sound: the record was checked, and the list has room for the K numbers that were counted.
    unsafe {
        let begin = list.as_mut_ptr();
        let end = writing::write_list(&board, begin);
        debug_assert_eq!(end.offset_from(begin) as u64, sizes.numbers);
    }
    Ok(sizes)
}

/// WriteText: writes the text that the program prints to the first of the lent bytes, and tells its length.
#[inline(never)]
pub fn write_text(record: &[u8], bytes: &mut [u8]) -> Result<usize, Refused> {
    let mut board = Board::of(record);
    let sizes = opening::open(&mut board)?;
    let mut list = Vec::with_capacity(sizes.numbers as usize);
    // Sound: the record was checked, and the list has room for the K numbers that were counted.
    unsafe {
        writing::write_list(&board, list.as_mut_ptr());
        list.set_len(sizes.numbers as usize);
    }
    let first = text::first_line(&sizes);
    let length = first.len() + text::length(&list);
    if bytes.len() < length {
        return Err(Refused { number: 10, detail: length as u64 });
    }
    bytes[..first.len()].copy_from_slice(first.as_bytes());
    // Sound: the numbers take the bytes that were counted.
    unsafe {
        let end = text::write(&list, bytes.as_mut_ptr().add(first.len()));
        debug_assert_eq!(end.offset_from(bytes.as_ptr()) as usize, length);
    }
    Ok(length)
}

/// Decode: writes the values and Boolean bytes of a model.
#[inline(never)]
pub fn decode(
    record: &[u8],
    model: &[u8],
    values: &mut [i32],
    booleans: &mut [u8],
) -> Result<(), Refused> {
    let mut board = Board::of(record);
    let sizes = opening::open(&mut board)?;
    check_length(model.len(), sizes.variables as usize)?;
    check_length(values.len(), board.integers)?;
    check_length(booleans.len(), board.booleans)?;
    check_bits(model)?;
    let decoded = decoding::values_of(&board, model)?;
    values.copy_from_slice(&decoded[..board.integers]);
    booleans.copy_from_slice(&model[..board.booleans]);
    Ok(())
}

/// Judge: accepts exactly a solution.
#[inline(never)]
pub fn judge(record: &[u8], values: &[i32], booleans: &[u8]) -> Result<(), Refused> {
    let mut board = Board::of(record);
    opening::open(&mut board)?;
    check_length(values.len(), board.integers)?;
    check_length(booleans.len(), board.booleans)?;
    check_solution(&board, values, booleans)
}

/// Image: as Judge, and writes the plain model of the solution.
#[inline(never)]
pub fn image(
    record: &[u8],
    values: &[i32],
    booleans: &[u8],
    model: &mut [u8],
) -> Result<(), Refused> {
    let mut board = Board::of(record);
    let sizes = opening::open(&mut board)?;
    check_length(values.len(), board.integers)?;
    check_length(booleans.len(), board.booleans)?;
    check_length(model.len(), sizes.variables as usize)?;
    check_solution(&board, values, booleans)?;
    write_plain_model(&board, values, booleans, model);
    Ok(())
}
