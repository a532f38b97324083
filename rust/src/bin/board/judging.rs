//! Whether a part of a board holds by itself: put to the library as a board with that part alone.

use crate::board::{Clause, Setting};
use crate::sheet::Sheet;
use basmuthar::{Builder, Refusal};

/// The library's refusal of values that break a rule.
const DOES_NOT_HOLD: u64 = 13;

/// Whether these clauses hold at a setting, also where a value is outside its own bounds.
pub fn clauses_hold(sheet: &Sheet, clauses: &[Clause], setting: &Setting) -> Result<bool, Refusal> {
    let mut builder = Builder::new();
    for (number, value) in sheet.board.numbers.iter().zip(&setting.numbers) {
        // No value is read that a bound could not be.
        let value = i16::try_from(*value).unwrap_or(number.lower);
        builder.number(number.lower.min(value), number.upper.max(value));
    }
    for _ in &sheet.board.choices {
        builder.choice();
    }
    for clause in clauses {
        builder.rule(clause.iter().cloned());
    }
    match basmuthar::judge(&builder.record(), &setting.numbers, &setting.choices) {
        Ok(()) => Ok(true),
        Err(refusal) if refusal.number == DOES_NOT_HOLD => Ok(false),
        Err(refusal) => Err(refusal),
    }
}
