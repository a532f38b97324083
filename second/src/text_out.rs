//! Text out: the DIMACS CNF text of an accepted record, written into lent bytes.

use crate::clauses::numbers_of;
use crate::counting::Sizes;
use crate::operations::opened;
use crate::refusal::{refuse_if, Refusal};
use crate::text_length::text_length;

/// Writes the record's text to the first of the lent bytes; answers its length.
pub fn write_text(record: &[u8], lent: &mut [u8]) -> Result<u64, Refusal> {
    let (board, sizes) = opened(record)?;
    let length = text_length(&board, &sizes);
    refuse_if((lent.len() as u64) < length, 10, length as usize)?;
    let text = dimacs(&sizes, &numbers_of(&board));
    lent[..length as usize].copy_from_slice(text.as_bytes());
    Ok(length)
}

/// The first line, then a line for each clause.
pub fn dimacs(sizes: &Sizes, numbers: &[i32]) -> String {
    let mut text = format!("p cnf {} {}\n", sizes.variables, sizes.clauses);
    for number in numbers {
        text += &number.to_string();
        text += if *number == 0 { "\n" } else { " " };
    }
    text
}
