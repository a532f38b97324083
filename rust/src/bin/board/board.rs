//! A board: bounded numbers, choices and clauses, in the sizes that a record's fields have.

use basmuthar::{Builder, Literal};

/// Numbers are counted from 0, choices from 1, as a record counts them.
#[derive(Debug, Clone, Default, PartialEq, Eq)]
pub struct Board {
    pub numbers: Vec<Number>,
    pub choices: Vec<String>,
    pub clauses: Vec<Clause>,
}

/// An integer variable.
#[derive(Debug, Clone, PartialEq, Eq)]
pub struct Number {
    pub name: String,
    pub lower: i16,
    pub upper: i16,
}

/// Holds where one of its literals does.
pub type Clause = Vec<Literal>;

/// What the numbers and choices of a board are set to.
#[derive(Debug, Clone, PartialEq, Eq)]
pub struct Setting {
    pub numbers: Vec<i32>,
    /// 1 is yes, 0 is no.
    pub choices: Vec<u8>,
}

impl Board {
    /// The board without its names, ready to be written as a record.
    pub fn builder(&self) -> Builder {
        let mut builder = Builder::new();
        for number in &self.numbers {
            builder.number(number.lower, number.upper);
        }
        for _ in &self.choices {
            builder.choice();
        }
        for clause in &self.clauses {
            builder.rule(clause.iter().cloned());
        }
        builder
    }

    /// The board with only so many of its numbers and clauses, which name no number that is left out.
    pub fn first(&self, numbers: usize, clauses: usize) -> Board {
        Board {
            numbers: self.numbers[..numbers].to_vec(),
            choices: self.choices.clone(),
            clauses: self.clauses[..clauses].to_vec(),
        }
    }
}
