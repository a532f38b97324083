//! The three numbers of a board: SAT variables, clauses and list length, by counting.

use crate::board::{Board, Clause, Comparison, Literal};
use crate::clauses::{bound_ranges, tuple_sum};
use crate::refusal::{refuse_if, Refusal};
use crate::tuples::count_tuples;

/// The greatest K that is not refused.
pub const MOST_NUMBERS: u64 = 2_000_000_000;

/// N, M and K.
#[derive(Debug, Clone, Copy, Default, PartialEq, Eq)]
pub struct Sizes {
    pub variables: u64,
    pub clauses: u64,
    pub numbers: u64,
}

/// N, M and K of a board, or refusal 9.
pub fn count(board: &Board) -> Result<Sizes, Refusal> {
    let mut sizes = Sizes {
        variables: board.booleans as u64,
        ..Sizes::default()
    };
    for bounds in &board.variables {
        let width = (bounds.upper - bounds.lower + 1) as u64;
        sizes.variables += width + 1;
        sizes.add(2, 1);
        sizes.add(width, 2);
    }
    for clause in &board.clauses {
        sizes.add_clause(board, clause);
        refuse_if(sizes.numbers > MOST_NUMBERS, 9, 0)?;
    }
    Ok(sizes)
}

impl Sizes {
    /// So many clauses more, each of this many literals and a 0.
    fn add(&mut self, clauses: u64, literals: u64) {
        self.clauses += clauses;
        self.numbers += clauses * (literals + 1);
    }

    fn add_clause(&mut self, board: &Board, clause: &Clause) {
        match clause.literals.as_slice() {
            [Literal::Comparison(comparison)] => self.add_comparison(board, comparison, 0),
            literals => {
                self.add(1, literals.len() as u64);
                for comparison in clause.comparisons() {
                    self.variables += 1;
                    self.add_comparison(board, comparison, 1);
                }
            }
        }
    }

    /// The clauses of a comparison behind so many leading literals.
    fn add_comparison(&mut self, board: &Board, comparison: &Comparison, lead: u64) {
        if comparison.constant < board.least_sum(comparison) {
            self.add(1, lead);
        } else {
            let ranges = bound_ranges(board, comparison);
            let tuples = count_tuples(&ranges, tuple_sum(comparison));
            self.add(tuples, lead + comparison.terms.len() as u64);
        }
    }
}
