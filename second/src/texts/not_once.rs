//! Replies that are good text in which a variable does not stand exactly once, with the detail of refusal 19.

use super::reply_text::{numbers_of, ORDERS};
use crate::boards::dice::Dice;

/// The ways in which a variable does not stand once.
pub const WAYS: [&str; 5] = [
    "missing",
    "twice",
    "once with each sign",
    "two variables",
    "the last ones missing",
];

/// N, the numbers and the least variable that is not once among them.
pub struct NotOnce {
    pub variables: u32,
    pub numbers: Vec<i64>,
    pub least: u32,
}

/// A model's numbers in any order, wrong in the way of this number; the model is not empty.
pub fn not_once(dice: &mut Dice, way: usize, model: &[u8]) -> NotOnce {
    let order = dice.below(ORDERS.len());
    let mut numbers = numbers_of(dice, model, order);
    let mut variables = model.len() as u32;
    let mut least = dice.below(model.len()) as u32 + 1;
    match way {
        3 => {
            let other = dice.below(model.len()) as u32 + 1;
            spoil(dice, 1, &mut numbers, least);
            let way = dice.below(3);
            if other != least {
                spoil(dice, way, &mut numbers, other);
            }
            least = least.min(other);
        }
        4 => {
            least = variables + 1;
            variables = dice.pick(&[least, least + 1, 1 << 31, u32::MAX]);
        }
        _ => spoil(dice, way, &mut numbers, least),
    }
    NotOnce {
        variables,
        numbers,
        least,
    }
}

/// Takes the variable out, or puts it in a second time, with either sign.
fn spoil(dice: &mut Dice, way: usize, numbers: &mut Vec<i64>, variable: u32) {
    let is_it = |number: &i64| number.unsigned_abs() == u64::from(variable);
    let at = numbers
        .iter()
        .position(is_it)
        .expect("every variable is there");
    let number = numbers[at];
    match way {
        0 => {
            numbers.remove(at);
        }
        1 => numbers.insert(dice.below(numbers.len() + 1), number),
        _ => numbers.insert(dice.below(numbers.len() + 1), -number),
    }
}
