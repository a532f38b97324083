//! How many clauses and numbers there are: by formulas, without a walk over tuples.

use super::board::{Board, Comparison};
use super::Sizes;

impl Sizes {
    /// Those of a board's Booleans and axioms.
    pub fn of_axioms(board: &Board) -> Sizes {
        let variables = board.first_selector as u64 - 1;
        let bounds = variables - board.booleans as u64;
        let integers = board.integers as u64;
        Sizes { variables, clauses: bounds + integers, numbers: 3 * bounds + integers }
    }

    /// Adds a comparison's clauses; `led` is 1 where a selector leads them, or else 0.
    #[inline(always)]
    pub fn add_comparison(&mut self, comparison: &Comparison, led: u64) {
        self.variables += led;
        if comparison.total < 1 {
            self.clauses += 1;
            self.numbers += 1 + led;
        } else {
            let tuples = comparison.tuples();
            self.clauses += tuples;
            self.numbers += tuples * (comparison.terms as u64 + 1 + led);
        }
    }

    /// Adds the clause of a rule's own literals.
    #[inline(always)]
    pub fn add_line(&mut self, literals: u64) {
        self.clauses += 1;
        self.numbers += literals + 1;
    }
}

impl Comparison {
    /// How many clauses it has: one for each tuple, or an empty one where the constant is below the least sum.
    #[inline(always)]
    pub fn clauses(&self) -> u64 {
        if self.total < 1 {
            1
        } else {
            self.tuples()
        }
    }

    /// How many tuples of offsets within the widths have the total.
    #[inline(always)]
    fn tuples(&self) -> u64 {
        let total = i64::from(self.total);
        let [one, two, three] = self.widths.map(i64::from);
        match self.terms {
            1 => u64::from(total <= one),
            2 => pairs(one, two, total),
            _ => {
                // Inclusion and exclusion over the terms that are wider than they may be.
                let all = total + 1;
                let (one, two, three) = (one + 1, two + 1, three + 1);
                let even = triangle(all - one - two)
                    + triangle(all - one - three)
                    + triangle(all - two - three);
                let odd = triangle(all - one)
                    + triangle(all - two)
                    + triangle(all - three)
                    + triangle(all - one - two - three);
                (triangle(all) + even - odd) as u64
            }
        }
    }

    /// The place among its clauses of the first that does not hold, where it does not hold at values of these offsets.
    ///
    /// A clause does not hold where each offset of its tuple is below the value's.
    pub fn first_broken(&self, offsets: [i32; 3]) -> u64 {
        let [_, two, three] = self.widths.map(i64::from);
        let [_, most_two, most_three] = offsets.map(|offset| i64::from(offset) - 1);
        let total = i64::from(self.total);
        if total < 1 || self.terms == 1 {
            return 0;
        }
        if self.terms == 2 {
            return ((total - most_two).max(0) - (total - two).max(0)) as u64;
        }
        let first = (total - most_two - most_three).max(0);
        let from = (total - two - three).max(0);
        let before: u64 = (from..first).map(|offset| pairs(two, three, total - offset)).sum();
        let left = total - first;
        before + ((left - most_three).max(0) - (left - three).max(0)) as u64
    }
}

/// How many pairs of offsets within two widths have the total.
#[inline(always)]
fn pairs(one: i64, two: i64, total: i64) -> u64 {
    (one.min(total) - (total - two).max(0) + 1).max(0) as u64
}

/// 1 + 2 + .. + side, and 0 where there is no side.
#[inline(always)]
fn triangle(side: i64) -> i64 {
    let side = side.max(0);
    side * (side + 1) / 2
}
