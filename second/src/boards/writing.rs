//! Writing a board as a record, with a mark for every field of the body.

use crate::board::{Board, Comparison, Literal};

#[derive(Debug, Clone, Copy, PartialEq, Eq, PartialOrd, Ord)]
pub enum Field {
    VariableCount,
    BooleanCount,
    ClauseCount,
    Lower,
    Upper,
    LiteralCount,
    Kind,
    BooleanNumber,
    TermCount,
    Coefficient,
    Variable,
    Constant,
}

/// Where a field begins and how many bytes it has.
#[derive(Debug, Clone, Copy)]
pub struct Mark {
    pub field: Field,
    pub place: usize,
    pub width: usize,
}

#[derive(Clone)]
pub struct Written {
    pub record: Vec<u8>,
    pub marks: Vec<Mark>,
}

/// The record of a board.
pub fn written(board: &Board) -> Written {
    let mut written = Written {
        record: vec![1, 0, 0, 0, 0],
        marks: Vec::new(),
    };
    written.put(Field::VariableCount, board.variables.len() as i64, 2);
    written.put(Field::BooleanCount, board.booleans as i64, 2);
    written.put(Field::ClauseCount, board.clauses.len() as i64, 2);
    for bounds in &board.variables {
        written.put(Field::Lower, bounds.lower, 2);
        written.put(Field::Upper, bounds.upper, 2);
    }
    for clause in &board.clauses {
        written.put(Field::LiteralCount, clause.literals.len() as i64, 1);
        for literal in &clause.literals {
            written.put_literal(literal);
        }
    }
    state_length(&mut written.record);
    written
}

/// Makes the stated length that of the record.
pub fn state_length(record: &mut [u8]) {
    if record.len() >= 5 {
        let length = (record.len() - 5) as u32;
        record[1..5].copy_from_slice(&length.to_be_bytes());
    }
}

impl Written {
    fn put(&mut self, field: Field, value: i64, width: usize) {
        self.marks.push(Mark {
            field,
            place: self.record.len(),
            width,
        });
        self.record.extend(&value.to_be_bytes()[8 - width..]);
    }

    /// Writes another value over a field.
    pub fn overwrite(&mut self, mark: Mark, value: i64) {
        let bytes = &value.to_be_bytes()[8 - mark.width..];
        self.record[mark.place..mark.place + mark.width].copy_from_slice(bytes);
    }

    fn put_literal(&mut self, literal: &Literal) {
        match literal {
            Literal::Boolean(number) => self.put_boolean(0, *number),
            Literal::Negated(number) => self.put_boolean(1, *number),
            Literal::Comparison(comparison) => self.put_comparison(comparison),
        }
    }

    fn put_boolean(&mut self, kind: i64, number: usize) {
        self.put(Field::Kind, kind, 1);
        self.put(Field::BooleanNumber, number as i64, 2);
    }

    fn put_comparison(&mut self, comparison: &Comparison) {
        self.put(Field::Kind, 2, 1);
        self.put(Field::TermCount, comparison.terms.len() as i64, 1);
        for term in &comparison.terms {
            self.put(Field::Coefficient, term.coefficient, 1);
            self.put(Field::Variable, term.variable as i64, 2);
        }
        self.put(Field::Constant, comparison.constant, 4);
    }
}
