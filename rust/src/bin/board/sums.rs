//! Sums on either side of a sign: read, and brought to one side.

use crate::clock::{read_duration, take_hours};
use crate::complaint::Complaint;
use crate::sheet::{Named, Sheet};
use crate::words::{Word, Words};

/// Each variable stands once, where it was first met.
#[derive(Debug, Clone, Default, PartialEq, Eq)]
pub struct Sum {
    pub terms: Vec<(i64, u16)>,
    pub constant: i64,
    /// How many clock hours such as `Tue 08:00` were added, less those that were taken off.
    pub clocks: i64,
    /// Whether hours or minutes stand in it.
    pub has_unit: bool,
}

impl Sum {
    /// A number and so many steps.
    pub fn hours(number: u16, steps: i64) -> Sum {
        Sum { terms: vec![(1, number)], constant: steps, clocks: 0, has_unit: true }
    }

    fn add_term(&mut self, coefficient: i64, variable: u16) {
        match self.terms.iter_mut().find(|term| term.1 == variable) {
            Some(term) => term.0 += coefficient,
            None => self.terms.push((coefficient, variable)),
        }
    }

    /// This sum less another, without the variables that cancel out.
    pub fn less(mut self, other: &Sum) -> Sum {
        for &(coefficient, variable) in &other.terms {
            self.add_term(-coefficient, variable);
        }
        self.constant -= other.constant;
        self.terms.retain(|term| term.0 != 0);
        self
    }
}

/// Reads a sum such as `2*x - 3*y + 4` or `mugs + 7 h`. What was expected at its beginning is said where a name there is
/// unknown.
pub fn read_sum(words: &mut Words, sheet: &Sheet, expected: &str) -> Result<Sum, Complaint> {
    let mut sum = Sum::default();
    let mut expected = match words.peek()? {
        Word::Name(name) if !sheet.names.contains_key(name) => expected,
        _ => PART,
    };
    let mut factor = if words.take_if(Word::Symbol("-"))? { -1 } else { 1 };
    loop {
        read_part(words, sheet, factor, &mut sum, expected)?;
        expected = PART;
        factor = match words.peek()? {
            Word::Symbol("+") => 1,
            Word::Symbol("-") => -1,
            _ => return Ok(sum),
        };
        words.take()?;
    }
}

const PART: &str = "a whole number, or a declared number's name";

/// Reads `3`, `3*x`, `x`, `7 h` or `Tue 08:00` and adds it so many times.
fn read_part(
    words: &mut Words,
    sheet: &Sheet,
    factor: i64,
    sum: &mut Sum,
    expected: &str,
) -> Result<(), Complaint> {
    if let Some(hours) = take_hours(words, sheet)? {
        sum.constant += factor * hours.value;
        sum.clocks += factor;
        return Ok(());
    }
    let Word::Number(number) = words.peek()? else {
        sum.add_term(factor, read_variable(words, sheet, expected)?);
        return Ok(());
    };
    if words.second() == Some(Word::Symbol("*")) {
        words.take()?;
        words.take()?;
        let variable = read_variable(words, sheet, "a declared number's name")?;
        sum.add_term(factor * number, variable);
    } else {
        let duration = read_duration(words, sheet)?;
        sum.constant += factor * duration.steps;
        sum.has_unit |= duration.has_unit;
    }
    Ok(())
}

fn read_variable(words: &mut Words, sheet: &Sheet, expected: &str) -> Result<u16, Complaint> {
    if let Word::Name(name) = words.peek()? {
        if let Some(Named::Number(variable)) = sheet.names.get(name) {
            words.take()?;
            return Ok(*variable);
        }
    }
    Err(words.expected(expected))
}
