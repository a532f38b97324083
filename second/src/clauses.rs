//! The clause list: the axioms of each variable, then what each record clause becomes.

use crate::board::{Board, Clause, Comparison, Literal, Term};
use crate::numbering::Numbering;
use crate::tuples::{tuples, Range};

/// A clause of the list, without its final 0.
pub type Numbers = Vec<i32>;

struct Writer<'a> {
    board: &'a Board,
    numbering: Numbering,
    next_selector: i32,
    list: Vec<Numbers>,
}

/// All numbers of a board's list: each clause and its final 0.
pub fn numbers_of(board: &Board) -> Vec<i32> {
    let mut numbers = Vec::new();
    for clause in clause_list(board) {
        numbers.extend(clause);
        numbers.push(0);
    }
    numbers
}

/// All clauses of a board in their order.
pub fn clause_list(board: &Board) -> Vec<Numbers> {
    let numbering = Numbering::of(board);
    let mut writer = Writer {
        board,
        next_selector: numbering.first_selector as i32,
        numbering,
        list: Vec::new(),
    };
    for x in 0..board.variables.len() {
        writer.axioms(x);
    }
    for clause in &board.clauses {
        writer.clause(clause);
    }
    writer.list
}

impl Writer<'_> {
    fn bound(&self, x: usize, c: i64) -> i32 {
        self.numbering.bound(self.board, x, c)
    }

    fn axioms(&mut self, x: usize) {
        let bounds = self.board.variables[x];
        self.list.push(vec![-self.bound(x, bounds.lower - 1)]);
        self.list.push(vec![self.bound(x, bounds.upper)]);
        for c in bounds.lower..=bounds.upper {
            self.list
                .push(vec![-self.bound(x, c - 1), self.bound(x, c)]);
        }
    }

    fn clause(&mut self, clause: &Clause) {
        match clause.literals.as_slice() {
            [] => self.list.push(Vec::new()),
            [Literal::Boolean(number)] => self.list.push(vec![*number as i32]),
            [Literal::Negated(number)] => self.list.push(vec![-(*number as i32)]),
            [Literal::Comparison(comparison)] => self.comparison(comparison, &[]),
            literals => self.long_clause(literals),
        }
    }

    /// The clause of Booleans and selectors, then each comparison's clauses.
    fn long_clause(&mut self, literals: &[Literal]) {
        let mut choice = Vec::new();
        let mut selected = Vec::new();
        for literal in literals {
            match literal {
                Literal::Boolean(number) => choice.push(*number as i32),
                Literal::Negated(number) => choice.push(-(*number as i32)),
                Literal::Comparison(comparison) => {
                    choice.push(self.next_selector);
                    selected.push((self.next_selector, comparison));
                    self.next_selector += 1;
                }
            }
        }
        self.list.push(choice);
        for (selector, comparison) in selected {
            self.comparison(comparison, &[-selector]);
        }
    }

    /// The clauses of a comparison, each led by the negated selector, if any.
    fn comparison(&mut self, comparison: &Comparison, lead: &[i32]) {
        if comparison.constant < self.board.least_sum(comparison) {
            self.list.push(lead.to_vec());
            return;
        }
        let ranges = bound_ranges(self.board, comparison);
        for tuple in tuples(&ranges, tuple_sum(comparison)) {
            let mut clause = lead.to_vec();
            for (term, bound) in comparison.terms.iter().zip(tuple) {
                clause.push(term_number(self.board, &self.numbering, term, bound));
            }
            self.list.push(clause);
        }
    }
}

/// What a term gives at a bound.
pub fn term_number(board: &Board, numbering: &Numbering, term: &Term, bound: i64) -> i32 {
    let (positive, c) = primitive(term.coefficient, bound);
    let number = numbering.bound(board, term.variable, c);
    if positive {
        number
    } else {
        -number
    }
}

/// The range of each term's bound: its least less 1, to its greatest.
pub fn bound_ranges(board: &Board, comparison: &Comparison) -> Vec<Range> {
    let terms = comparison.terms.iter();
    terms
        .map(|term| (board.least(term) - 1, board.greatest(term)))
        .collect()
}

/// The sum of a tuple: k - n + 1.
pub fn tuple_sum(comparison: &Comparison) -> i64 {
    comparison.constant - comparison.terms.len() as i64 + 1
}

/// "ax at most b" as "x at most c" (true, c) or "not: x at most c" (false, c).
pub fn primitive(a: i64, b: i64) -> (bool, i64) {
    if a > 0 {
        (true, rounded_down(b, a))
    } else {
        // b/a rounded up is -(b/-a rounded down).
        (false, -rounded_down(b, -a) - 1)
    }
}

/// b/a toward minus infinity, for a positive a.
fn rounded_down(b: i64, a: i64) -> i64 {
    if b >= 0 || b % a == 0 {
        b / a
    } else {
        b / a - 1
    }
}

#[cfg(test)]
mod tests {
    use super::*;

    #[test]
    fn a_term_at_most_a_bound_is_its_primitive() {
        for a in (-64..=64).filter(|&a| a != 0) {
            for b in -200..=200 {
                let (positive, c) = primitive(a, b);
                for x in -210..=210 {
                    assert_eq!(a * x <= b, (x <= c) == positive, "{a}x at most {b}, x {x}");
                }
            }
        }
    }
}
