//! The numbers of the SAT variables: Booleans, then bounds, then selectors.

use crate::board::Board;

pub struct Numbering {
    /// For each integer variable x, the number of p(x, lower - 1).
    first_bound: Vec<i64>,
    /// The number of the first selector.
    pub first_selector: i64,
}

impl Numbering {
    pub fn of(board: &Board) -> Numbering {
        let mut next = board.booleans as i64 + 1;
        let mut first_bound = Vec::new();
        for bounds in &board.variables {
            first_bound.push(next);
            next += bounds.upper - (bounds.lower - 1) + 1;
        }
        Numbering {
            first_bound,
            first_selector: next,
        }
    }

    /// The number of p(x, c), for c from lower - 1 to upper.
    pub fn bound(&self, board: &Board, x: usize, c: i64) -> i32 {
        let bounds = board.variables[x];
        assert!(bounds.lower - 1 <= c && c <= bounds.upper);
        (self.first_bound[x] + c - (bounds.lower - 1)) as i32
    }
}
