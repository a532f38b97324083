//! Every assignment of a board within bounds, and which of them are solutions.

use second::board::Board;

/// A value for each integer variable and a byte for each Boolean.
pub type Assignment = (Vec<i32>, Vec<u8>);

/// Every assignment within bounds.
pub fn assignments(board: &Board) -> Vec<Assignment> {
    let mut found: Vec<Assignment> = vec![(Vec::new(), Vec::new())];
    for bounds in &board.variables {
        let longer = found.iter().flat_map(|(values, _)| {
            let longer = |value| [values.as_slice(), &[value as i32]].concat();
            (bounds.lower..=bounds.upper).map(move |value| (longer(value), Vec::new()))
        });
        found = longer.collect();
    }
    for _ in 0..board.booleans {
        let longer = found.iter().flat_map(|(values, booleans)| {
            [0, 1].map(|byte| (values.clone(), [booleans.as_slice(), &[byte]].concat()))
        });
        found = longer.collect();
    }
    found
}

/// How many assignments there are, or none where they pass the greatest count.
pub fn count_up_to(board: &Board, greatest: u64) -> Option<u64> {
    let widths = board.variables.iter();
    let widths = widths.map(|bounds| (bounds.upper - bounds.lower + 1) as u64);
    let mut factors = widths.chain(std::iter::repeat_n(2, board.booleans));
    factors.try_fold(1, |count, factor| {
        let product = count * factor;
        (product <= greatest).then_some(product)
    })
}

/// Whether values and Booleans are a solution, by the board alone.
pub fn holds(board: &Board, values: &[i32], booleans: &[u8]) -> bool {
    let mut pairs = board.variables.iter().zip(values);
    let inside = pairs.all(|(bounds, &value)| {
        let value = i64::from(value);
        bounds.lower <= value && value <= bounds.upper
    });
    let mut clauses = board.clauses.iter();
    inside && clauses.all(|clause| clause.holds(values, booleans))
}
