//! One list serves all questions: its models with p(x,h) true decode to the solutions of x at most h.

use crate::assignments::Assignment;
use crate::both::{Both, Compared};
use crate::tally::Operation;
use second::board::Board;
use second::numbering::Numbering;
use std::collections::BTreeSet;

/// A model of the list and what it decodes to.
pub type Decoded = (Vec<u8>, Assignment);

/// Pairs models and solutions for each variable and each p(x,h).
pub fn check(
    both: &mut Both,
    board: &Board,
    models: &[Decoded],
    solutions: &[Assignment],
) -> Compared<()> {
    let numbering = Numbering::of(board);
    for (x, bounds) in board.variables.iter().enumerate() {
        for h in bounds.lower - 1..=bounds.upper {
            let number = numbering.bound(board, x, h) as usize;
            let models = models.iter().filter(|(model, _)| model[number - 1] == 1);
            let decoded: BTreeSet<&Assignment> = models.map(|(_, decoded)| decoded).collect();
            let solutions = solutions.iter();
            let solutions = solutions.filter(|(values, _)| i64::from(values[x]) <= h);
            let expected: BTreeSet<&Assignment> = solutions.collect();
            if decoded != expected {
                let what = format!("variable {x} at most {h}: models decode to {decoded:?}");
                let what = format!("{what}, the solutions are {expected:?}");
                return Err(both.differs(Operation::Closing, what));
            }
            both.tally.outcomes.paired += 1;
        }
    }
    Ok(())
}
