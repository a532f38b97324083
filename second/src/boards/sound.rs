//! Random sound boards: mostly small, now and then at the edge of a count.

use super::dice::Dice;
use super::writing::written;
use super::Drawn;
use crate::board::{Board, Bounds, Clause, Comparison, Literal, Term};
use crate::clauses::{bound_ranges, tuple_sum};
use crate::reading::{GREATEST_BOUND, GREATEST_CONSTANT, LEAST_BOUND, LONGEST_RECORD};
use crate::tuples::count_tuples;

type Way = (&'static str, fn(&mut Dice) -> Board);

/// The ways that are drawn seldom, for their size.
const SELDOM: [Way; 9] = [
    ("empty board", |_| empty()),
    ("most variables", most_variables),
    ("most Booleans", most_booleans),
    ("most clauses", most_clauses),
    ("longest clauses", longest_clauses),
    ("widest bounds", widest_bounds),
    ("range of any size", range_of_any_size),
    ("longest record", longest_record),
    ("large comparison", large_comparison),
];

/// A sound record.
pub fn sound(dice: &mut Dice) -> Drawn {
    let (way, draw): Way = if dice.one_in(50) {
        dice.pick(&SELDOM)
    } else if dice.one_in(3) {
        ("tiny board", tiny)
    } else {
        ("common board", common)
    };
    let record = written(&draw(dice)).record;
    let way = way.to_string();
    Drawn { record, way }
}

fn empty() -> Board {
    Board {
        variables: Vec::new(),
        booleans: 0,
        clauses: Vec::new(),
    }
}

/// A board of few SAT variables, for trying all models.
fn tiny(dice: &mut Dice) -> Board {
    let mut board = empty();
    for _ in 0..dice.between(0, 3) {
        let lower = dice.between(-3, 3);
        let upper = lower + dice.pick(&[0, 0, 1, 1, 2, 3]);
        board.variables.push(Bounds { lower, upper });
    }
    board.booleans = dice.pick(&[0, 0, 1, 2]);
    for _ in 0..dice.pick(&[0, 1, 1, 1, 2, 2, 3]) {
        let literals = dice.pick(&[1, 1, 1, 2, 2, 3]);
        add_clause(dice, &mut board, literals, 40);
    }
    board
}

pub fn common(dice: &mut Dice) -> Board {
    let mut board = empty();
    for _ in 0..dice.pick(&[0, 1, 1, 2, 2, 3, 3, 4, 5]) {
        let bounds = common_bounds(dice);
        board.variables.push(bounds);
    }
    board.booleans = dice.pick(&[0, 0, 1, 2, 3, 5]);
    for _ in 0..dice.pick(&[0, 1, 1, 2, 2, 3, 4, 6]) {
        let literals = common_literals(dice);
        add_clause(dice, &mut board, literals, 250);
    }
    board
}

fn common_literals(dice: &mut Dice) -> usize {
    if dice.one_in(30) {
        0
    } else if dice.one_in(60) {
        dice.between(5, 64) as usize
    } else {
        dice.pick(&[1, 1, 1, 2, 2, 3, 4])
    }
}

fn common_bounds(dice: &mut Dice) -> Bounds {
    let width = if dice.one_in(20) {
        dice.between(0, 60)
    } else {
        dice.between(0, 8)
    };
    let lower = match dice.below(8) {
        0 => LEAST_BOUND + dice.between(0, 2),
        1 => GREATEST_BOUND - width - dice.between(0, 2),
        2 => dice.between(LEAST_BOUND, GREATEST_BOUND - width),
        _ => dice.between(-8, 8),
    };
    let lower = lower.min(GREATEST_BOUND - width);
    let upper = lower + width;
    Bounds { lower, upper }
}

/// Adds a clause of so many literals; comparisons have few tuples.
fn add_clause(dice: &mut Dice, board: &mut Board, count: usize, most_tuples: u64) {
    let mut literals = Vec::new();
    if board.variables.is_empty() && board.booleans == 0 {
        board.clauses.push(Clause { literals });
        return;
    }
    for _ in 0..count {
        let boolean = board.booleans > 0 && dice.one_in(3);
        let literal = if boolean || board.variables.is_empty() {
            let number = dice.below(board.booleans) + 1;
            dice.pick(&[Literal::Boolean, Literal::Negated])(number)
        } else {
            Literal::Comparison(comparison(dice, board, most_tuples))
        };
        literals.push(literal);
    }
    board.clauses.push(Clause { literals });
}

fn comparison(dice: &mut Dice, board: &Board, most_tuples: u64) -> Comparison {
    let mut drawn = Comparison {
        terms: terms(dice, board),
        constant: 0,
    };
    drawn.constant = common_constant(dice, board, &drawn);
    while tuples_of(board, &drawn) > most_tuples {
        drawn.constant = edge_constant(dice, board, &drawn);
    }
    drawn
}

fn terms(dice: &mut Dice, board: &Board) -> Vec<Term> {
    let count = dice.between(1, 3.min(board.variables.len() as i64));
    let mut terms: Vec<Term> = Vec::new();
    while terms.len() < count as usize {
        let variable = dice.below(board.variables.len());
        if terms.iter().all(|term| term.variable != variable) {
            let coefficient = coefficient(dice);
            terms.push(Term {
                coefficient,
                variable,
            });
        }
    }
    terms
}

fn coefficient(dice: &mut Dice) -> i64 {
    let size = match dice.below(10) {
        0 => 64,
        1 => dice.between(1, 64),
        2..=4 => dice.between(2, 5),
        _ => 1,
    };
    dice.pick(&[size, -size])
}

/// Around the least and greatest sum, between them, or far out.
fn common_constant(dice: &mut Dice, board: &Board, of: &Comparison) -> i64 {
    let least = board.least_sum(of);
    let greatest = board.greatest_sum(of);
    match dice.below(10) {
        0 | 1 => edge_constant(dice, board, of),
        2 => dice.pick(&[0, -1, 1]),
        3 if dice.one_in(5) => dice.pick(&[-GREATEST_CONSTANT, GREATEST_CONSTANT]),
        _ => dice.between(least - 3, greatest + 3),
    }
}

/// Where the tuples begin and where they end.
fn edge_constant(dice: &mut Dice, board: &Board, of: &Comparison) -> i64 {
    let least = board.least_sum(of);
    let last = board.greatest_sum(of) + of.terms.len() as i64 - 1;
    match dice.below(2) {
        0 => least + dice.between(-2, 3),
        _ => last + dice.between(-3, 1),
    }
}

fn tuples_of(board: &Board, of: &Comparison) -> u64 {
    if of.constant < board.least_sum(of) {
        return 0;
    }
    count_tuples(&bound_ranges(board, of), tuple_sum(of))
}

fn most_variables(dice: &mut Dice) -> Board {
    let mut board = empty();
    for _ in 0..dice.between(1_022, 1_024) {
        let lower = dice.between(-5, 5);
        let upper = lower + dice.between(0, 1);
        board.variables.push(Bounds { lower, upper });
    }
    for _ in 0..dice.between(0, 3) {
        add_clause(dice, &mut board, 2, 40);
    }
    board
}

fn most_booleans(dice: &mut Dice) -> Board {
    let mut board = common(dice);
    board.booleans = dice.between(4_094, 4_096) as usize;
    add_clause(dice, &mut board, 3, 40);
    let last = Literal::Boolean(board.booleans);
    let literals = vec![last];
    board.clauses.push(Clause { literals });
    board
}

fn most_clauses(dice: &mut Dice) -> Board {
    let mut board = empty();
    for _ in 0..2 {
        let bounds = common_bounds(dice);
        board.variables.push(bounds);
    }
    board.booleans = dice.between(0, 20) as usize;
    let count = dice.between(4_094, 4_096);
    for _ in 0..count {
        let comparison = dice.one_in(40) || board.booleans == 0;
        let literals = if comparison { 1 } else { 0 };
        if comparison || dice.one_in(4_000) {
            add_clause(dice, &mut board, literals, 3);
        } else {
            boolean_clause(dice, &mut board, 2);
        }
    }
    board
}

fn boolean_clause(dice: &mut Dice, board: &mut Board, count: usize) {
    let mut literals = Vec::new();
    for _ in 0..count {
        let number = dice.below(board.booleans) + 1;
        literals.push(dice.pick(&[Literal::Boolean, Literal::Negated])(number));
    }
    board.clauses.push(Clause { literals });
}

fn longest_clauses(dice: &mut Dice) -> Board {
    let mut board = common(dice);
    for _ in 0..dice.between(1, 2) {
        let literals = dice.between(63, 64) as usize;
        add_clause(dice, &mut board, literals, 20);
    }
    board
}

fn widest_bounds(dice: &mut Dice) -> Board {
    let mut board = empty();
    for _ in 0..dice.between(1, 2) {
        board.variables.push(Bounds {
            lower: LEAST_BOUND + dice.pick(&[0, 0, 1]),
            upper: GREATEST_BOUND - dice.pick(&[0, 0, 1]),
        });
    }
    let bounds = common_bounds(dice);
    board.variables.push(bounds);
    for _ in 0..dice.between(1, 3) {
        let literals = dice.pick(&[1, 2]);
        add_clause(dice, &mut board, literals, 100);
    }
    board
}

/// One variable with around a power of two values, and rules on it alone.
fn range_of_any_size(dice: &mut Dice) -> Board {
    let mut board = empty();
    let widest = GREATEST_BOUND - LEAST_BOUND + 1;
    let values = (1 << dice.between(3, 13)) + dice.between(-1, 1);
    let last = values.min(widest) - 1;
    let lower = dice.between(LEAST_BOUND, GREATEST_BOUND - last);
    let upper = lower + last;
    board.variables.push(Bounds { lower, upper });
    board.booleans = dice.pick(&[0, 1]);
    for _ in 0..dice.between(1, 3) {
        let literals = dice.pick(&[1, 1, 2]);
        add_clause(dice, &mut board, literals, 40);
    }
    board
}

/// A record of the greatest length: 11 bytes, 4,094 clauses, 20,477 Booleans.
fn longest_record(dice: &mut Dice) -> Board {
    let mut board = empty();
    board.booleans = dice.between(50, 4_096) as usize;
    let clauses = 4_094;
    let literals = (LONGEST_RECORD - 11 - clauses) / 3;
    let longer = literals - 5 * clauses;
    for number in 0..clauses {
        boolean_clause(dice, &mut board, if number < longer { 6 } else { 5 });
    }
    board
}

/// One comparison with some ten thousand tuples.
fn large_comparison(dice: &mut Dice) -> Board {
    let mut board = empty();
    for _ in 0..3 {
        let lower = dice.between(-50, 10);
        let upper = lower + dice.between(20, 100);
        board.variables.push(Bounds { lower, upper });
    }
    let literals = dice.pick(&[1, 2]);
    add_clause(dice, &mut board, literals, 10_000);
    board
}
