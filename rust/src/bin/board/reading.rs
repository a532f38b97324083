//! A record read as a board, with names made up for its variables.

use crate::board::{Board, Clause, Number};
use basmuthar::{Comparison, Literal, Term};

/// What is still to be read of a record.
struct Rest<'a>(&'a [u8]);

/// The board of a record that the library has accepted: every field is there and in its range.
pub fn board_of(record: &[u8]) -> Board {
    let mut rest = Rest(&record[5..]);
    let [numbers, choices, clauses] = [rest.two(), rest.two(), rest.two()].map(u16::from_be_bytes);
    Board {
        numbers: (0..numbers).map(|index| rest.number(index)).collect(),
        choices: (1..=choices).map(|number| format!("b{number}")).collect(),
        clauses: (0..clauses).map(|_| rest.clause()).collect(),
    }
}

impl Rest<'_> {
    fn bytes<const WIDTH: usize>(&mut self) -> [u8; WIDTH] {
        let (field, rest) = self.0.split_at(WIDTH);
        self.0 = rest;
        field.try_into().expect("a field of that width")
    }

    fn one(&mut self) -> u8 {
        self.bytes::<1>()[0]
    }

    fn two(&mut self) -> [u8; 2] {
        self.bytes()
    }

    fn number(&mut self, index: u16) -> Number {
        Number {
            name: format!("x{index}"),
            lower: i16::from_be_bytes(self.two()),
            upper: i16::from_be_bytes(self.two()),
        }
    }

    fn clause(&mut self) -> Clause {
        let count = self.one();
        (0..count).map(|_| self.literal()).collect()
    }

    fn literal(&mut self) -> Literal {
        let kind = self.one();
        if kind < 2 {
            let number = u16::from_be_bytes(self.two());
            let wanted = kind == 0;
            return Literal::Choice { number, wanted };
        }
        let count = self.one();
        let terms = (0..count).map(|_| self.term()).collect();
        let limit = i32::from_be_bytes(self.bytes());
        Literal::Comparison(Comparison { terms, limit })
    }

    fn term(&mut self) -> Term {
        Term {
            coefficient: i8::from_be_bytes(self.bytes()),
            variable: u16::from_be_bytes(self.two()),
        }
    }
}
