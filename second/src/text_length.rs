//! The length of a board's text by counting, for lists that are too long to be written.

use crate::board::{Board, Clause, Comparison, Literal};
use crate::clauses::{bound_ranges, term_number, tuple_sum};
use crate::counting::Sizes;
use crate::numbering::Numbering;
use crate::tuples::{count_by_bound, count_tuples};

/// How many bytes the text of a board has.
pub fn text_length(board: &Board, sizes: &Sizes) -> u64 {
    let first_line = format!("p cnf {} {}\n", sizes.variables, sizes.clauses);
    let zeros = sizes.clauses * "0\n".len() as u64;
    let numbering = Numbering::of(board);
    let mut selector = numbering.first_selector as i32;
    let mut length = first_line.len() as u64 + zeros;
    for x in 0..board.variables.len() {
        length += axioms(board, &numbering, x);
    }
    for clause in &board.clauses {
        length += clause_length(board, &numbering, clause, &mut selector);
    }
    length
}

/// A literal and the space behind it.
fn spaced(number: i32) -> u64 {
    number.to_string().len() as u64 + 1
}

fn axioms(board: &Board, numbering: &Numbering, x: usize) -> u64 {
    let bounds = board.variables[x];
    let number = |c: i64| numbering.bound(board, x, c);
    let ends = spaced(-number(bounds.lower - 1)) + spaced(number(bounds.upper));
    let links = bounds.lower..=bounds.upper;
    let links = links.map(|c| spaced(-number(c - 1)) + spaced(number(c)));
    ends + links.sum::<u64>()
}

fn clause_length(board: &Board, numbering: &Numbering, clause: &Clause, selector: &mut i32) -> u64 {
    let mut length = 0;
    for literal in &clause.literals {
        length += match literal {
            Literal::Boolean(number) => spaced(*number as i32),
            Literal::Negated(number) => spaced(-(*number as i32)),
            Literal::Comparison(comparison) if clause.has_selectors() => {
                let led = spaced(-*selector);
                let chosen = spaced(*selector);
                *selector += 1;
                chosen + comparison_length(board, numbering, comparison, led)
            }
            Literal::Comparison(comparison) => comparison_length(board, numbering, comparison, 0),
        }
    }
    length
}

/// The literals of a comparison's clauses, each clause led by so many bytes.
fn comparison_length(
    board: &Board,
    numbering: &Numbering,
    comparison: &Comparison,
    lead: u64,
) -> u64 {
    if comparison.constant < board.least_sum(comparison) {
        return lead;
    }
    let ranges = bound_ranges(board, comparison);
    let sum = tuple_sum(comparison);
    let mut length = lead * count_tuples(&ranges, sum);
    for (at, term) in comparison.terms.iter().enumerate() {
        let counts = count_by_bound(&ranges, sum, at).into_iter();
        let lengths = counts
            .map(|(bound, tuples)| tuples * spaced(term_number(board, numbering, term, bound)));
        length += lengths.sum::<u64>();
    }
    length
}
