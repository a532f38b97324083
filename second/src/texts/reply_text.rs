//! Random replies that are good: every variable once, in any order and in lines of any length.

use super::pieces::{Kind, Pieces};
use crate::boards::dice::Dice;

/// The reply that there is no model.
pub const NO_MODEL: &str = "s UNSATISFIABLE\n";

/// The orders in which a reply's numbers come.
pub const ORDERS: [&str; 3] = ["rising", "falling", "shuffled"];

/// How the numbers are set in lines.
pub const SETTINGS: [&str; 3] = ["one line", "a line for each", "lines broken anywhere"];

/// A byte for each of up to twelve variables, or of none.
pub fn drawn_model(dice: &mut Dice) -> Vec<u8> {
    let variables = dice.pick(&[0, 1, 2, 3, 5, 9, 10, 11, 12]);
    (0..variables).map(|_| dice.byte() & 1).collect()
}

/// The numbers of a model in the order of this number, without the 0.
pub fn numbers_of(dice: &mut Dice, model: &[u8], order: usize) -> Vec<i64> {
    let signed = model.iter().zip(1..);
    let signed = signed.map(|(&byte, number)| if byte == 1 { number } else { -number });
    let mut numbers: Vec<i64> = signed.collect();
    match order {
        0 => {}
        1 => numbers.reverse(),
        _ => dice.shuffle(&mut numbers),
    }
    numbers
}

/// The reply of these numbers and a 0, in the setting of this number.
pub fn set(dice: &mut Dice, numbers: &[i64], setting: usize) -> Pieces {
    let mut pieces = Pieces::default();
    pieces.put(Kind::Word, "s");
    pieces.put(Kind::Space, " ");
    pieces.put(Kind::Word, "SATISFIABLE");
    let often = dice.pick(&[2, 3, 8]);
    for (index, number) in numbers.iter().chain(&[0]).enumerate() {
        let broken = match setting {
            0 => false,
            1 => true,
            _ => dice.one_in(often),
        };
        if index == 0 || broken {
            pieces.put(Kind::LineEnd, "\n");
            pieces.put(Kind::Word, "v");
        }
        pieces.put(Kind::Space, " ");
        pieces.put(Kind::Number, number.to_string());
    }
    pieces.put(Kind::LineEnd, "\n");
    pieces
}
