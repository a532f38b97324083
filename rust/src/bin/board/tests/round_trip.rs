//! Drawn boards: their words read back as the same board, and their records too.

use super::dice::Dice;
use crate::board::{Board, Clause, Number};
use crate::reading::board_of;
use crate::sheet::read_sheet;
use crate::wording::board_words;
use basmuthar::{Comparison, Literal, Term};

fn drawn(dice: &mut Dice) -> Board {
    let numbers = dice.between(0, 5);
    let choices = dice.between(0, 4);
    let number = |index, dice: &mut Dice| {
        let lower = dice.between(-4096, 4095) as i16;
        Number { name: format!("x{index}"), lower, upper: dice.between(lower.into(), 4095) as i16 }
    };
    Board {
        numbers: (0..numbers).map(|index| number(index, dice)).collect(),
        choices: (1..=choices).map(|number| format!("b{number}")).collect(),
        clauses: (0..dice.between(0, 6)).map(|_| clause(dice, numbers, choices)).collect(),
    }
}

fn clause(dice: &mut Dice, numbers: i64, choices: i64) -> Clause {
    let mut clause = Clause::new();
    for _ in 0..dice.pick(&[0, 1, 1, 2, 3, 5]) {
        if choices > 0 && dice.between(0, 1) == 0 {
            clause.push(Literal::Choice {
                number: dice.between(1, choices) as u16,
                wanted: dice.between(0, 1) == 1,
            });
        } else if numbers > 0 {
            clause.push(Literal::Comparison(comparison(dice, numbers)));
        }
    }
    clause
}

fn comparison(dice: &mut Dice, numbers: i64) -> Comparison {
    let mut terms: Vec<Term> = Vec::new();
    for _ in 0..dice.between(1, 3) {
        let variable = dice.between(0, numbers - 1) as u16;
        let factor = dice.pick(&[1, -1]);
        if terms.iter().all(|term| term.variable != variable) {
            let coefficient = factor * dice.pick(&[1, 1, 2, 7, 64]);
            terms.push(Term { coefficient, variable });
        }
    }
    let limit = dice.between(-1_000_000, 1_000_000) as i32;
    Comparison { terms, limit }
}

#[test]
fn words_and_records_read_back() {
    let mut dice = Dice::new(2);
    for _ in 0..1_000 {
        let board = drawn(&mut dice);
        let words = board_words(&board);
        assert_eq!(read_sheet(&words).unwrap().board, board, "{words}");
        assert_eq!(board_of(&board.builder().record()), board, "{words}");
    }
}
