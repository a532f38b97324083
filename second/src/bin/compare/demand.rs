//! Demand 3 on small boards, by trying every model and every assignment.

use crate::assignments::{assignments, holds, Assignment};
use crate::both::{Both, Compared};
use crate::one_list::{self, Decoded};
use crate::tally::Operation;
use second::board::Board;
use second::boards::dice::Dice;
use std::collections::BTreeMap;

/// Plain models by the assignment they decode to.
type Plain = BTreeMap<Assignment, Vec<u8>>;

/// Whether a board of this size gets the trial this time.
pub fn is_due(dice: &mut Dice, variables: usize, numbers: usize) -> bool {
    match variables {
        _ if numbers > 1_000 => false,
        0..=10 => true,
        11..=12 => dice.one_in(4),
        13..=14 => dice.one_in(16),
        _ => false,
    }
}

/// Decode pairs the plain models with the solutions, and Image turns that round.
pub fn check(both: &mut Both, board: &Board, variables: usize, numbers: usize) -> Compared<()> {
    let list = both.compile(numbers)?.numbers;
    let models = decoded_models(both, board, variables, &list)?;
    let mut plain = plain_models(both, board, &models)?;
    let mut solutions = Vec::new();
    both.tally.demand[0] += 1;
    both.tally.demand[2] += plain.len() as u64;
    for (values, booleans) in assignments(board) {
        let holds = holds(board, &values, &booleans);
        if both.judge(&values, &booleans)?.accepted() != holds {
            let what = format!("{values:?} {booleans:?}: a solution is {holds}");
            return Err(both.differs(Operation::Judge, what));
        }
        let image = both.image(&values, &booleans, variables)?;
        if !holds {
            continue;
        }
        both.tally.demand[3] += 1;
        solutions.push((values, booleans));
        let model = plain.remove(&solutions[solutions.len() - 1]);
        if model.as_ref() != Some(&image.bytes) {
            let what = format!("Image {image:?}, plain model {model:?}");
            return Err(both.differs(Operation::Image, what));
        }
    }
    if !plain.is_empty() {
        return Err(both.differs(Operation::Decode, format!("left over: {plain:?}")));
    }
    one_list::check(both, board, &models, &solutions)
}

/// Every model of the list and what it decodes to.
fn decoded_models(
    both: &mut Both,
    board: &Board,
    variables: usize,
    list: &[i32],
) -> Compared<Vec<Decoded>> {
    let masks = clause_masks(list);
    let mut models = Vec::new();
    for bits in 0..1_u32 << variables {
        let model: Vec<u8> = (0..variables).map(|at| (bits >> at) as u8 & 1).collect();
        let failing = first_failing(&masks, bits);
        if let Some(assignment) = decoded(both, board, &model, failing)? {
            models.push((model, assignment));
        }
    }
    both.tally.demand[1] += models.len() as u64;
    Ok(models)
}

/// The plain models, no two of which decode alike.
fn plain_models(both: &Both, board: &Board, models: &[Decoded]) -> Compared<Plain> {
    let mut plain = Plain::new();
    for (model, assignment) in models {
        if is_plain(board, model, &assignment.0) {
            if let Some(other) = plain.insert(assignment.clone(), model.clone()) {
                let what = format!("{model:?} and {other:?} are plain and decode alike");
                return Err(both.differs(Operation::Decode, what));
            }
        }
    }
    Ok(plain)
}

/// The solution a model decodes to; none, with refusal 13, where a clause fails.
fn decoded(
    both: &mut Both,
    board: &Board,
    model: &[u8],
    failing: Option<usize>,
) -> Compared<Option<Assignment>> {
    let after = both.decode(model, board.variables.len(), board.booleans)?;
    let expected = match failing {
        Some(clause) => [13, clause as u64, 0, 0],
        None => [0; 4],
    };
    if after.answer != expected {
        let what = format!("{model:?} gives {after:?}, by the list {expected:?}");
        return Err(both.differs(Operation::Decode, what));
    }
    if failing.is_some() {
        return Ok(None);
    }
    let (values, booleans) = (after.numbers, after.bytes);
    if !holds(board, &values, &booleans) {
        let what = format!("{model:?} gives {values:?} {booleans:?}, not a solution");
        return Err(both.differs(Operation::Decode, what));
    }
    Ok(Some((values, booleans)))
}

/// The first clause none of whose literals holds in the model of these bits.
fn first_failing(masks: &[(u32, u32)], bits: u32) -> Option<usize> {
    let fails = |(wanted, unwanted): &(u32, u32)| bits & wanted == 0 && !bits & unwanted == 0;
    masks.iter().position(fails)
}

/// For each clause of the list, the numbers it has and the numbers it has negated.
fn clause_masks(list: &[i32]) -> Vec<(u32, u32)> {
    let mut masks = Vec::new();
    let mut mask = (0, 0);
    for &number in list {
        match number {
            0 => masks.push(std::mem::take(&mut mask)),
            1.. => mask.0 |= 1 << (number - 1),
            _ => mask.1 |= 1 << (-number - 1),
        }
    }
    masks
}

/// Whether each selector is true exactly when its comparison holds at the values.
fn is_plain(board: &Board, model: &[u8], values: &[i32]) -> bool {
    let clauses = board.clauses.iter().filter(|clause| clause.has_selectors());
    let comparisons: Vec<_> = clauses.flat_map(|clause| clause.comparisons()).collect();
    let selectors = &model[model.len() - comparisons.len()..];
    let mut pairs = selectors.iter().zip(comparisons);
    pairs.all(|(&byte, comparison)| (byte == 1) == comparison.holds(values))
}
