//! Reading a record, from left to right, into a board.

use crate::board::{Board, Bounds, Clause, Comparison, Literal, Term};
use crate::refusal::{refuse_if, Refusal};

pub const LONGEST_RECORD: usize = 65_536;
pub const MOST_VARIABLES: i64 = 1_024;
pub const MOST_BOOLEANS: i64 = 4_096;
pub const MOST_CLAUSES: i64 = 4_096;
pub const LEAST_BOUND: i64 = -4_096;
pub const GREATEST_BOUND: i64 = 4_095;
pub const MOST_LITERALS: i64 = 64;
pub const MOST_TERMS: i64 = 3;
pub const GREATEST_COEFFICIENT: i64 = 64;
pub const GREATEST_CONSTANT: i64 = 1_000_000;

/// The bytes before the body: the version and the stated length.
const HEAD: usize = 5;

/// A number that was read, and the offset of its first byte.
struct Field {
    value: i64,
    place: usize,
}

struct Reader<'a> {
    record: &'a [u8],
    place: usize,
}

/// The board of a record, or the first refusal from 1 to 8.
pub fn read(record: &[u8]) -> Result<Board, Refusal> {
    read_head(record)?;
    let mut reader = Reader {
        record,
        place: HEAD,
    };
    let board = reader.board()?;
    refuse_if(reader.place < record.len(), 8, reader.place)?;
    Ok(board)
}

fn read_head(record: &[u8]) -> Result<(), Refusal> {
    refuse_if(record.len() > LONGEST_RECORD, 1, 0)?;
    refuse_if(record.len() < HEAD, 2, 0)?;
    refuse_if(record[0] != 1, 3, 0)?;
    let stated = u32::from_be_bytes([record[1], record[2], record[3], record[4]]);
    refuse_if(stated as usize != record.len() - HEAD, 2, 0)
}

impl Field {
    /// The value, or this refusal at the field's place where it is out of range.
    fn within(&self, least: i64, greatest: i64, number: u8) -> Result<i64, Refusal> {
        refuse_if(
            self.value < least || self.value > greatest,
            number,
            self.place,
        )?;
        Ok(self.value)
    }
}

impl Reader<'_> {
    /// The next field of so many bytes, as a number without sign.
    fn unsigned(&mut self, width: usize) -> Result<Field, Refusal> {
        let place = self.place;
        refuse_if(self.record.len() - place < width, 8, place)?;
        self.place += width;
        let bytes = &self.record[place..self.place];
        let value = bytes.iter().fold(0, |sum, &byte| 256 * sum + byte as i64);
        Ok(Field { value, place })
    }

    /// The next field of so many bytes, in two's complement.
    fn signed(&mut self, width: usize) -> Result<Field, Refusal> {
        let mut field = self.unsigned(width)?;
        let whole = 1 << (8 * width);
        if field.value >= whole / 2 {
            field.value -= whole;
        }
        Ok(field)
    }

    fn board(&mut self) -> Result<Board, Refusal> {
        let variable_count = self.unsigned(2)?.within(0, MOST_VARIABLES, 4)?;
        let boolean_count = self.unsigned(2)?.within(0, MOST_BOOLEANS, 4)?;
        let clause_count = self.unsigned(2)?.within(0, MOST_CLAUSES, 4)?;
        let mut board = Board {
            variables: Vec::new(),
            booleans: boolean_count as usize,
            clauses: Vec::new(),
        };
        for _ in 0..variable_count {
            board.variables.push(self.bounds()?);
        }
        for _ in 0..clause_count {
            let clause = self.clause(&board)?;
            board.clauses.push(clause);
        }
        Ok(board)
    }

    fn bounds(&mut self) -> Result<Bounds, Refusal> {
        let lower = self.signed(2)?.within(LEAST_BOUND, GREATEST_BOUND, 5)?;
        let field = self.signed(2)?;
        let upper = field.within(LEAST_BOUND, GREATEST_BOUND, 5)?;
        refuse_if(upper < lower, 5, field.place)?;
        Ok(Bounds { lower, upper })
    }

    fn clause(&mut self, board: &Board) -> Result<Clause, Refusal> {
        let count = self.unsigned(1)?.within(0, MOST_LITERALS, 4)?;
        let mut literals = Vec::new();
        for _ in 0..count {
            literals.push(self.literal(board)?);
        }
        Ok(Clause { literals })
    }

    fn literal(&mut self, board: &Board) -> Result<Literal, Refusal> {
        let kind = self.unsigned(1)?.within(0, 2, 6)?;
        match kind {
            0 => Ok(Literal::Boolean(self.boolean_number(board)?)),
            1 => Ok(Literal::Negated(self.boolean_number(board)?)),
            _ => Ok(Literal::Comparison(self.comparison(board)?)),
        }
    }

    fn boolean_number(&mut self, board: &Board) -> Result<usize, Refusal> {
        let number = self.unsigned(2)?.within(1, board.booleans as i64, 6)?;
        Ok(number as usize)
    }

    fn comparison(&mut self, board: &Board) -> Result<Comparison, Refusal> {
        let count = self.unsigned(1)?.within(1, MOST_TERMS, 4)?;
        let mut terms = Vec::new();
        for _ in 0..count {
            let term = self.term(board, &terms)?;
            terms.push(term);
        }
        let field = self.signed(4)?;
        let constant = field.within(-GREATEST_CONSTANT, GREATEST_CONSTANT, 17)?;
        Ok(Comparison { terms, constant })
    }

    /// The next term; its variable differs from those of the terms before it.
    fn term(&mut self, board: &Board, before: &[Term]) -> Result<Term, Refusal> {
        let field = self.signed(1)?;
        let coefficient = field.within(-GREATEST_COEFFICIENT, GREATEST_COEFFICIENT, 7)?;
        refuse_if(coefficient == 0, 7, field.place)?;
        let field = self.unsigned(2)?;
        let variable = field.value as usize;
        let unknown = variable >= board.variables.len();
        refuse_if(unknown, 15, field.place)?;
        let repeated = before.iter().any(|term| term.variable == variable);
        refuse_if(repeated, 16, field.place)?;
        Ok(Term {
            coefficient,
            variable,
        })
    }
}
