//! Closing: a variable's least value over all solutions, by questions "at most h?" and their replies.

use crate::board::Bounds;
use crate::operations::{are_bits, opened};
use crate::refusal::{refuse_if, Refusal};

/// The most questions that any variable takes.
pub const MOST_QUESTIONS: usize = 14;

/// What the replies lead to.
#[derive(Debug, Clone, Copy, PartialEq, Eq)]
pub enum Closing {
    Found(i32),
    None,
    /// The range so far, and the question that no reply was given to.
    Unfinished {
        low: i32,
        high: i32,
        next: i32,
    },
}

/// Closing: the least value of a variable, which is counted from 0.
pub fn closing(record: &[u8], variable: usize, replies: &[u8]) -> Result<Closing, Refusal> {
    let (board, _) = opened(record)?;
    refuse_if(variable >= board.variables.len(), 22, variable)?;
    are_bits(replies)?;
    let (closing, used) = search(board.variables[variable], replies);
    let left_over = replies.len() - used;
    refuse_if(left_over > 0, 23, left_over)?;
    Ok(closing)
}

/// What replies of 0 and 1 lead to within bounds, and how many of them are used.
pub fn search(bounds: Bounds, replies: &[u8]) -> (Closing, usize) {
    let (mut low, mut high) = (bounds.lower, bounds.upper);
    match replies.first() {
        None => return (unfinished(low, high, high), 0),
        Some(0) => return (Closing::None, 1),
        Some(_) => {}
    }
    let mut used = 1;
    while low < high {
        let half = half_rounded_down(low + high);
        match replies.get(used) {
            None => return (unfinished(low, high, half), used),
            Some(0) => low = half + 1,
            Some(_) => high = half,
        }
        used += 1;
    }
    (Closing::Found(low as i32), used)
}

fn unfinished(low: i64, high: i64, next: i64) -> Closing {
    let [low, high, next] = [low, high, next].map(|hour| hour as i32);
    Closing::Unfinished { low, high, next }
}

/// Half of a sum toward minus infinity, also where it is negative.
fn half_rounded_down(sum: i64) -> i64 {
    let rest = sum.rem_euclid(2);
    (sum - rest) / 2
}
