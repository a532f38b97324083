//! Records whose list length is near the greatest that is not refused, or far above it.

use super::dice::Dice;
use super::writing::written;
use super::Drawn;
use crate::board::{Board, Bounds, Clause, Comparison, Literal, Term};
use crate::counting::{count, MOST_NUMBERS};
use crate::reading::{GREATEST_BOUND, LEAST_BOUND};

/// Numbers left free behind the large comparisons.
const ROOM: u64 = 10;

/// A record at the ceiling, just above it or far above it.
pub fn around(dice: &mut Dice) -> Drawn {
    let (way, board) = match dice.below(4) {
        0 => ("K at the ceiling", filled(dice, MOST_NUMBERS)),
        1 => ("K the ceiling and 1", filled(dice, MOST_NUMBERS + 1)),
        _ => ("K far above the ceiling", far_above(dice)),
    };
    let record = written(&board).record;
    let way = way.to_string();
    Drawn { record, way }
}

fn wide_board(variables: usize) -> Board {
    let bounds = Bounds {
        lower: LEAST_BOUND,
        upper: GREATEST_BOUND,
    };
    Board {
        variables: vec![bounds; variables],
        booleans: 1,
        clauses: Vec::new(),
    }
}

fn far_above(dice: &mut Dice) -> Board {
    let mut board = wide_board(3);
    let terms = (0..3).map(|variable| Term {
        coefficient: dice.pick(&[64, -64, 63, 50]),
        variable,
    });
    let terms = terms.collect();
    let constant = dice.between(-100_000, 100_000);
    push_comparison(&mut board, terms, constant);
    board
}

/// A board with K exactly so many: large comparisons first, then Booleans.
fn filled(dice: &mut Dice, numbers: u64) -> Board {
    let mut board = wide_board(3);
    for terms in [3, 2, 2, 2] {
        let terms: Vec<Term> = (0..terms)
            .map(|variable| Term {
                coefficient: dice.pick(&[8, 15, -9, 31, -64]),
                variable,
            })
            .collect();
        let constant = greatest_constant(&board, &terms, numbers);
        push_comparison(&mut board, terms, constant);
    }
    fill_up(&mut board, numbers);
    board
}

/// K of a board, or more than any K where it is refused.
fn numbers_of(board: &Board) -> u64 {
    count(board).map_or(u64::MAX, |sizes| sizes.numbers)
}

fn push_comparison(board: &mut Board, terms: Vec<Term>, constant: i64) {
    let literals = vec![Literal::Comparison(Comparison { terms, constant })];
    board.clauses.push(Clause { literals });
}

/// The greatest constant up to the middle that leaves room behind K; at the least,
/// one below the least sum, which adds an empty clause.
fn greatest_constant(board: &Board, terms: &[Term], numbers: u64) -> i64 {
    let mut board = board.clone();
    let terms = terms.to_vec();
    let constant = 0;
    let whole = Comparison { terms, constant };
    let mut low = board.least_sum(&whole) - 1;
    let mut high = (low + board.greatest_sum(&whole)) / 2;
    while low < high {
        let middle = low + (high - low + 1) / 2;
        push_comparison(&mut board, whole.terms.clone(), middle);
        if numbers_of(&board) <= numbers - ROOM {
            low = middle;
        } else {
            high = middle - 1;
        }
        board.clauses.pop();
    }
    low
}

/// Adds clauses of Booleans until K is exactly so many.
fn fill_up(board: &mut Board, numbers: u64) {
    let mut missing = (numbers - numbers_of(board)) as usize;
    while missing > 0 {
        let take = missing.min(65);
        let literals = vec![Literal::Boolean(1); take - 1];
        board.clauses.push(Clause { literals });
        missing -= take;
    }
}
