//! Random clause texts that are good: small boards' lists, printed or loosely set.

use super::pieces::{Kind, Pieces};
use crate::boards::dice::Dice;
use crate::text_in::GREATEST_COUNT;

/// What a clause text says.
#[derive(Debug, Clone)]
pub struct Clauses {
    pub variables: u64,
    pub clauses: u64,
    pub numbers: Vec<i32>,
}

/// How the numbers of a text are set.
pub const SETTINGS: [&str; 4] = [
    "as printed",
    "loosely set",
    "in one line",
    "without a last newline",
];

/// Few clauses of few literals; N is small, 0 or the greatest.
pub fn drawn_clauses(dice: &mut Dice) -> Clauses {
    let greatest = GREATEST_COUNT as i64;
    let most = dice.pick(&[0, 1, 2, 5, 12, 130, greatest - 1, greatest]);
    let clauses = dice.below(5) as u64;
    let mut numbers = Vec::new();
    for _ in 0..clauses {
        for _ in 0..dice.below(4) {
            numbers.extend(literal(dice, most));
        }
        numbers.push(0);
    }
    let variables = most as u64;
    Clauses {
        variables,
        clauses,
        numbers,
    }
}

/// A number from -most to most that is not 0, if there is any: often one of the ends.
fn literal(dice: &mut Dice, most: i64) -> Option<i32> {
    if most == 0 {
        return None;
    }
    let digits = dice.between(1, 10) as u32;
    let size = dice.between(1, most.min(10_i64.pow(digits)));
    let size = dice.pick(&[1, most, size, size]);
    Some(dice.pick(&[size, -size]) as i32)
}

/// The text in the setting of this number.
pub fn set(dice: &mut Dice, said: &Clauses, setting: usize) -> Pieces {
    let mut pieces = first_line(said);
    let loose = setting == 1;
    if loose && dice.one_in(2) {
        pieces.put(Kind::Gap, gap(dice));
    }
    for (index, number) in said.numbers.iter().enumerate() {
        pieces.put(Kind::Number, number.to_string());
        let last = index + 1 == said.numbers.len();
        if last && (setting == 3 || loose && dice.one_in(2)) {
            break;
        }
        match setting {
            1 => pieces.put(Kind::Gap, gap(dice)),
            0 | 3 if *number == 0 => pieces.put(Kind::Gap, "\n"),
            _ => pieces.put(Kind::Gap, " "),
        }
    }
    pieces
}

fn first_line(said: &Clauses) -> Pieces {
    let mut pieces = Pieces::default();
    pieces.put(Kind::Word, "p");
    pieces.put(Kind::Space, " ");
    pieces.put(Kind::Word, "cnf");
    pieces.put(Kind::Space, " ");
    pieces.put(Kind::Count, said.variables.to_string());
    pieces.put(Kind::Space, " ");
    pieces.put(Kind::Count, said.clauses.to_string());
    pieces.put(Kind::LineEnd, "\n");
    pieces
}

/// From one to four spaces and newlines.
fn gap(dice: &mut Dice) -> Vec<u8> {
    let length = dice.between(1, 4);
    (0..length).map(|_| dice.pick(b"  \n")).collect()
}
