//! The calls of Closing that are tried on one record: variables, and replies good and bad.

use crate::both::{Both, Compared};
use crate::tries::{random_bits, spoiled};
use second::board::{Board, Bounds};
use second::boards::dice::Dice;
use second::closing::{search, MOST_QUESTIONS};

/// How many replies are drawn: some are left over behind the most questions.
const DRAWN: usize = MOST_QUESTIONS + 6;

/// Known variables over replies of many kinds, and unknown ones.
pub fn all(both: &mut Both, dice: &mut Dice, board: &Board) -> Compared<()> {
    let count = board.variables.len();
    if count > 0 {
        for _ in 0..2 {
            let variable = dice.below(count);
            known(both, dice, variable, board.variables[variable])?;
        }
    }
    let variable = unknown(dice, count);
    both.closing(variable, &any_replies(dice))?;
    both.closing(count, &any_replies(dice))?;
    Ok(())
}

/// The replies that end the questions, and fewer, more, many more and bad ones.
fn known(both: &mut Both, dice: &mut Dice, variable: usize, bounds: Bounds) -> Compared<()> {
    let mut replies = good_replies(dice);
    let (_, used) = search(bounds, &replies);
    both.closing(variable, &replies[..used])?;
    both.closing(variable, &replies[..dice.below(used)])?;
    let many = used + 1 + dice.below(DRAWN - used);
    both.closing(variable, &replies[..many])?;
    both.closing(variable, &spoiled(dice, &replies[..many]))?;
    let left_over = spoiled(dice, &replies[used..many]);
    both.closing(variable, &[&replies[..used], &left_over].concat())?;
    if dice.one_in(8) {
        let hundreds = dice.between(100, 600) as usize;
        replies.extend(random_bits(dice, hundreds));
        both.closing(variable, &replies)?;
        both.closing(variable, &spoiled(dice, &replies))?;
    }
    Ok(())
}

/// Replies of 0 and 1: mostly mixed behind a first yes, or all alike.
fn good_replies(dice: &mut Dice) -> Vec<u8> {
    let mut replies = match dice.below(6) {
        0 => vec![0; DRAWN],
        1 => vec![1; DRAWN],
        _ => random_bits(dice, DRAWN),
    };
    if !dice.one_in(6) {
        replies[0] = 1;
    }
    replies
}

/// Replies of any length up to the most, now and then with bad bytes.
pub fn any_replies(dice: &mut Dice) -> Vec<u8> {
    let mut replies = good_replies(dice);
    replies.truncate(dice.below(DRAWN + 1));
    if dice.one_in(3) {
        replies = spoiled(dice, &replies);
    }
    replies
}

/// A number that no variable has: just above, or one that looks known once it is cut short.
pub fn unknown(dice: &mut Dice, count: usize) -> usize {
    let known = dice.below(count.max(1));
    let cut_short = [1 << 16, 1 << 32, 1 << 63].map(|bit: usize| bit + known);
    match dice.below(4) {
        0 => count + dice.below(3),
        1 => usize::MAX - dice.below(2),
        _ => dice.pick(&cut_short),
    }
}
