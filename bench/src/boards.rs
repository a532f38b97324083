//! The boards that are measured, each with a solution that it was built around.

mod shops;
mod small;
mod sums;
mod worst;

use basmuthar::{Builder, Literal};

pub struct Board {
    /// One word, to ask for it by.
    pub name: &'static str,
    pub title: &'static str,
    pub kind: Kind,
    pub record: Vec<u8>,
    /// A solution: the integer variables, and the Boolean ones.
    pub values: Vec<i32>,
    pub booleans: Vec<u8>,
}

#[derive(Debug, Clone, Copy, PartialEq, Eq)]
pub enum Kind {
    /// Many clauses for each comparison.
    Wide,
    /// Booleans, or few clauses for each comparison.
    Small,
    /// As bad as a record of its kind can be.
    Worst,
    /// Worst, and its list has gigabytes.
    Huge,
}

/// Every board, in the order of the table.
pub fn all() -> Vec<Board> {
    vec![
        shops::workshop_week(),
        shops::shop(),
        shops::open_shop(),
        sums::three_term_sums(),
        sums::large_coefficients(),
        small::boolean_clauses(),
        small::two_term_rules_over_1024(),
        small::two_term_rules_over_16(),
        worst::most_terms(),
        worst::most_literals(),
        worst::most_bounds(),
        worst::cube(),
        worst::ceiling(),
    ]
}

/// The record of integer variables that all have the same bounds, and of rules.
fn record(numbers: u16, bounds: (i16, i16), rules: Vec<Vec<Literal>>) -> Vec<u8> {
    built(vec![bounds; usize::from(numbers)], 0, rules)
}

fn built(bounds: Vec<(i16, i16)>, choices: u16, rules: Vec<Vec<Literal>>) -> Vec<u8> {
    let mut board = Builder::new();
    for (lower, upper) in bounds {
        board.number(lower, upper);
    }
    for _ in 0..choices {
        board.choice();
    }
    for rule in rules {
        board.rule(rule);
    }
    board.record()
}
