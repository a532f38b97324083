//! Clause text in: DIMACS CNF text, read into a list of numbers.

use crate::counting::Sizes;
use crate::refusal::{refuse_if, Refusal};
use crate::scanning::Scanner;

/// The greatest N and M of a text.
pub const GREATEST_COUNT: u64 = 2_147_483_647;

/// Reads clause text into the first K places of the lent list; answers N, M and K.
pub fn read_text(text: &[u8], list: &mut [i32]) -> Result<Sizes, Refusal> {
    let (sizes, numbers) = read_clauses(text)?;
    refuse_if(list.len() < numbers.len(), 10, numbers.len())?;
    list[..numbers.len()].copy_from_slice(&numbers);
    Ok(sizes)
}

/// N, M, K and all numbers of a good text.
fn read_clauses(text: &[u8]) -> Result<(Sizes, Vec<i32>), Refusal> {
    let mut scanner = Scanner::of(text);
    let (variables, clauses) = first_line(&mut scanner)?;
    let mut numbers = Vec::new();
    let mut zeros = 0;
    scanner.skip_separators();
    while zeros < clauses {
        let number = scanner.number(variables)?;
        numbers.push(number as i32);
        if number == 0 {
            zeros += 1;
        }
        if zeros < clauses {
            scanner.expect_separator()?;
        }
        scanner.skip_separators();
    }
    scanner.end()?;
    let sizes = Sizes {
        variables,
        clauses,
        numbers: numbers.len() as u64,
    };
    Ok((sizes, numbers))
}

/// The line `p cnf N M`.
fn first_line(scanner: &mut Scanner) -> Result<(u64, u64), Refusal> {
    scanner.pass(b"p cnf ")?;
    let variables = scanner.count(GREATEST_COUNT)?;
    scanner.pass(b" ")?;
    let clauses = scanner.count(GREATEST_COUNT)?;
    scanner.pass(b"\n")?;
    Ok((variables, clauses))
}
