//! Closing with true replies, where every assignment is tried: it has to find the least value.

use crate::assignments::{assignments, count_up_to, holds};
use crate::both::{After, Both, Compared};
use crate::first::{FOUND, NONE, UNFINISHED};
use crate::tally::Operation;
use second::board::Board;

/// The most assignments that are tried.
const MOST: u64 = 1_000;

/// A variable with at least this many values takes many questions.
const WIDE: i64 = 120;

/// The most assignments that are tried where there is a wide variable.
const MOST_WIDE: u64 = 100_000;

/// Whether all assignments of the board are tried.
pub fn is_due(board: &Board) -> bool {
    let mut variables = board.variables.iter();
    let wide = variables.any(|bounds| bounds.upper - bounds.lower + 1 >= WIDE);
    let most = if wide { MOST_WIDE } else { MOST };
    !board.variables.is_empty() && count_up_to(board, most).is_some()
}

/// Asks for the least value of each variable, with replies that are true.
pub fn check(both: &mut Both, board: &Board) -> Compared<()> {
    let mut solutions = assignments(board);
    solutions.retain(|(values, booleans)| holds(board, values, booleans));
    both.tally.outcomes.asked[0] += 1;
    for variable in 0..board.variables.len() {
        let values = solutions.iter().map(|(values, _)| values[variable]);
        ask(both, variable, &values.collect::<Vec<i32>>())?;
    }
    Ok(())
}

/// Replies to one question after another by the variable's values over all solutions.
fn ask(both: &mut Both, variable: usize, values: &[i32]) -> Compared<()> {
    let least = values.iter().min().copied();
    let mut replies = Vec::new();
    loop {
        let after = both.closing(variable, &replies)?;
        if !is_true(&after, least) {
            let what = format!("variable {variable}, true replies {replies:?}: {after:?}");
            let what = format!("{what}, the least value is {least:?}");
            return Err(both.differs(Operation::Closing, what));
        }
        if after.answer != UNFINISHED {
            break;
        }
        let question = after.numbers[2];
        replies.push(u8::from(values.iter().any(|&value| value <= question)));
    }
    let outcomes = &mut both.tally.outcomes;
    outcomes.asked[if least.is_some() { 1 } else { 2 }] += 1;
    outcomes.most_questions = outcomes.most_questions.max(replies.len());
    Ok(())
}

/// Whether the least value is the one found, in the range so far, or none.
fn is_true(after: &After, least: Option<i32>) -> bool {
    let [low, high, _] = after.numbers[..] else {
        return false;
    };
    match after.answer {
        FOUND => least == Some(low),
        NONE => least.is_none(),
        UNFINISHED => least.is_none_or(|value| low <= value && value <= high),
        _ => false,
    }
}
