//! The literals of a rule: read as they are written, and turned into literals of a record.

use crate::before::take_before;
use crate::complaint::{fitted, Complaint, Spot};
use crate::sheet::{Named, Sheet};
use crate::signs::{negated, rows_of, sign_of, Turn};
use crate::sums::{read_sum, Sum};
use crate::words::{Word, Words};
use basmuthar::{Comparison, Literal, Term};

/// A literal as it is written, and what it becomes: each row has to hold, and a row holds where one of its literals does.
#[derive(Debug, Clone)]
pub struct Part {
    pub said: Said,
    pub rows: Vec<Vec<Literal>>,
    pub spot: Spot,
    /// Whether it is a condition turned round: what stands after `if`.
    pub is_condition: bool,
}

#[derive(Debug, Clone)]
pub enum Said {
    Choice { number: u16, wanted: bool },
    Comparison { left: Side, sign: &'static str, right: Side },
}

/// A side of a comparison.
#[derive(Debug, Clone)]
pub struct Side {
    pub text: String,
    pub sum: Sum,
}

impl Part {
    fn choice(number: u16, wanted: bool, spot: Spot) -> Part {
        let rows = vec![vec![Literal::Choice { number, wanted }]];
        Part { said: Said::Choice { number, wanted }, rows, spot, is_condition: false }
    }

    pub fn comparison(
        left: Side,
        sign: &'static str,
        right: Side,
        spot: Spot,
    ) -> Result<Part, Complaint> {
        let sum = left.sum.clone().less(&right.sum);
        if sum.terms.is_empty() {
            let words = "expected a comparison with a number's name: here none is left";
            return Err(Complaint::new(spot, words));
        }
        let turned_row = |row: &&[Turn]| row.iter().map(|turn| turned(&sum, turn, spot)).collect();
        let rows = rows_of(sign).iter().map(turned_row).collect::<Result<_, _>>()?;
        Ok(Part { said: Said::Comparison { left, sign, right }, rows, spot, is_condition: false })
    }

    /// The part that holds exactly where this one does not.
    pub fn turned_round(self) -> Result<Part, Complaint> {
        match self.said {
            Said::Choice { number, wanted } => Ok(Part::choice(number, !wanted, self.spot)),
            Said::Comparison { left, sign, right } => {
                Part::comparison(left, negated(sign), right, self.spot)
            }
        }
    }

    /// The part in words that read back as itself.
    pub fn words(&self, sheet: &Sheet) -> String {
        match &self.said {
            Said::Choice { number, wanted } => {
                let not = if *wanted { "" } else { "not " };
                format!("{not}{}", sheet.board.choices[usize::from(*number) - 1])
            }
            Said::Comparison { left, sign, right } => {
                format!("{} {sign} {}", left.text, right.text)
            }
        }
    }
}

/// Reads a choice, a choice turned round, `mugs before plates`, or a comparison.
pub fn read_part(words: &mut Words, sheet: &Sheet) -> Result<Part, Complaint> {
    let spot = words.spot();
    if words.take_if(Word::Name("not"))? {
        let Some(number) = take_choice(words, sheet)? else {
            return Err(words.expected("a declared choice's name"));
        };
        return Ok(Part::choice(number, false, spot));
    }
    if let Some(number) = take_choice(words, sheet)? {
        return Ok(Part::choice(number, true, spot));
    }
    if let Some(part) = take_before(words, sheet)? {
        return Ok(part);
    }
    let left = read_side(words, sheet, "a declared name, a whole number or `not`")?;
    let Some(sign) = sign_next(words)? else {
        return Err(words.expected("`<=`, `>=`, `<`, `>`, `=`, `!=`, `+` or `-`"));
    };
    words.take()?;
    let right = read_side(words, sheet, "a whole number, or a declared number's name")?;
    Part::comparison(left, sign, right, spot)
}

/// Reads a sum; at its beginning an unknown name is complained about with what may stand there.
fn read_side(words: &mut Words, sheet: &Sheet, expected: &str) -> Result<Side, Complaint> {
    let before = words.rest_of_line();
    let sum = read_sum(words, sheet, expected)?;
    let after = words.rest_of_line();
    Ok(Side { text: before[..before.len() - after.len()].trim_end().to_string(), sum })
}

fn sign_next(words: &Words) -> Result<Option<&'static str>, Complaint> {
    Ok(match words.peek()? {
        Word::Symbol(symbol) => sign_of(symbol),
        _ => None,
    })
}

fn take_choice(words: &mut Words, sheet: &Sheet) -> Result<Option<u16>, Complaint> {
    if let Word::Name(name) = words.peek()? {
        if let Some(Named::Choice(number)) = sheet.names.get(name) {
            words.take()?;
            return Ok(Some(*number));
        }
    }
    Ok(None)
}

/// "sum at most 0", its sign turned as the table of signs says.
fn turned(sum: &Sum, turn: &Turn, spot: Spot) -> Result<Literal, Complaint> {
    fitted::<u8>(sum.terms.len() as i64, spot, "at most three terms")?;
    let mut terms = Vec::new();
    for &(coefficient, variable) in &sum.terms {
        let coefficient = turn.factor * coefficient;
        terms.push(Term {
            coefficient: fitted(coefficient, spot, "a coefficient from -64 to 64")?,
            variable,
        });
    }
    let limit = turn.factor * -sum.constant + turn.shift;
    let limit = fitted(limit, spot, "a limit from -1,000,000 to 1,000,000")?;
    Ok(Literal::Comparison(Comparison { terms, limit }))
}
