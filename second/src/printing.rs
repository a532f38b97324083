//! What the program prints for a record: DIMACS CNF, or one line of refusal.

use crate::operations::compile;
use crate::text_out::dimacs;

/// The length of the list that the program compiles into.
pub const PROGRAM_LIST: usize = 16_384;

/// The whole output for a record.
pub fn printed(record: &[u8]) -> String {
    let mut list = vec![0; PROGRAM_LIST];
    match compile(record, &mut list) {
        Ok(sizes) => dimacs(&sizes, &list[..sizes.numbers as usize]),
        Err(refusal) => format!("refused {} {}\n", refusal.number, refusal.detail),
    }
}
