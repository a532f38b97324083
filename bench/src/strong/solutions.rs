//! Judge and Image: values and Boolean bytes against the rules, and the plain model of a solution.

use super::board::{Board, Literal, Variable};
use super::opening::refused;
use super::Refused;

/// Refusal 11 for a lent list of another length.
pub fn check_length(length: usize, wanted: usize) -> Result<(), Refused> {
    if length != wanted {
        return refused(11, wanted);
    }
    Ok(())
}

/// Refusal 12 for the first byte that is not 0 or 1; all bytes are looked at together before the first is looked for.
pub fn check_bits(bytes: &[u8]) -> Result<(), Refused> {
    if bytes.iter().fold(0, |all, byte| all | byte) > 1 {
        let index = bytes.iter().position(|&byte| byte > 1).expect("some byte is above 1");
        return refused(12, index);
    }
    Ok(())
}

/// Refusals 12, 14 and 13, of lists whose lengths were checked.
pub fn check_solution(board: &Board, values: &[i32], booleans: &[u8]) -> Result<(), Refused> {
    check_bits(booleans)?;
    for (index, (variable, value)) in board.variables.iter().zip(values).enumerate() {
        if !(variable.lower..=variable.upper).contains(value) {
            return refused(14, index);
        }
    }
    let mut at = board.rules;
    for number in 0..board.clauses {
        let mut holds = false;
        let literals = board.record[at];
        at += 1;
        for _ in 0..literals {
            // Sound: the board was opened, and every list has its length.
            let (literal, next) = unsafe { board.literal(at) };
            holds = holds || unsafe { literal_holds(board, literal, values, booleans) };
            at = next;
        }
        if !holds {
            return refused(13, number);
        }
    }
    Ok(())
}

#[inline(always)]
unsafe fn literal_holds(board: &Board, literal: Literal, values: &[i32], bits: &[u8]) -> bool {
    match literal {
        Literal::Boolean { number, wanted } => *bits.get_unchecked(number - 1) == wanted,
        Literal::Comparison { place, terms } => board.sum_holds(place, terms, values),
    }
}

/// Writes the plain model of a solution; the model has its length.
pub fn write_plain_model(board: &Board, values: &[i32], booleans: &[u8], model: &mut [u8]) {
    model[..board.booleans].copy_from_slice(booleans);
    for (&Variable { lower, upper, first }, value) in board.variables.iter().zip(values) {
        let begin = first as usize - 1;
        let bounds = &mut model[begin..begin + (upper - lower + 2) as usize];
        let (below, others) = bounds.split_at_mut((value - lower + 1) as usize);
        below.fill(0);
        others.fill(1);
    }
    let mut selector = board.first_selector as usize - 1;
    let mut at = board.rules;
    for _ in 0..board.clauses {
        let literals = board.record[at];
        at += 1;
        for _ in 0..literals {
            // Sound: the board was opened, and every list has its length.
            let (literal, next) = unsafe { board.literal(at) };
            at = next;
            if let (Literal::Comparison { place, terms }, true) = (literal, literals > 1) {
                model[selector] = u8::from(unsafe { board.sum_holds(place, terms, values) });
                selector += 1;
            }
        }
    }
}
