//! A board in words: its declarations and its clauses.

use crate::board::{Board, Clause};
use crate::sheet::Sheet;
use basmuthar::{Comparison, Literal, Term};

/// A board as a text that reads back as the same board.
pub fn board_words(board: &Board) -> String {
    let mut text = String::new();
    for number in &board.numbers {
        let (name, lower, upper) = (&number.name, number.lower, number.upper);
        text += &format!("number {name} : {lower} .. {upper}\n");
    }
    for choice in &board.choices {
        text += &format!("choice {choice}\n");
    }
    for clause in &board.clauses {
        text += &clause_words(board, clause);
        text.push('\n');
    }
    text
}

/// The bounds of a number as its declaration has them.
pub fn bounds_words(sheet: &Sheet, number: u16) -> String {
    let declared = &sheet.board.numbers[usize::from(number)];
    let [lower, upper] = [declared.lower, declared.upper].map(i64::from);
    format!("{} .. {}", sheet.value_words(number, lower), sheet.value_words(number, upper))
}

fn clause_words(board: &Board, clause: &Clause) -> String {
    if clause.is_empty() {
        return "never".to_string();
    }
    let literals: Vec<String> =
        clause.iter().map(|literal| literal_words(board, literal)).collect();
    literals.join(" or ")
}

fn literal_words(board: &Board, literal: &Literal) -> String {
    match literal {
        Literal::Choice { number, wanted } => {
            let not = if *wanted { "" } else { "not " };
            format!("{not}{}", choice_name(board, *number))
        }
        Literal::Comparison(comparison) => {
            format!("{} <= {}", sum_words(board, comparison), comparison.limit)
        }
    }
}

fn choice_name(board: &Board, number: u16) -> &str {
    &board.choices[usize::from(number) - 1]
}

pub fn yes_or_no(byte: u8) -> &'static str {
    if byte == 1 {
        "yes"
    } else {
        "no"
    }
}

/// A sum with the names of its variables, such as `2*x - y`.
fn sum_words(board: &Board, comparison: &Comparison) -> String {
    let name = |term: &Term| board.numbers[usize::from(term.variable)].name.clone();
    added(comparison, name)
}

fn added(comparison: &Comparison, word: impl Fn(&Term) -> String) -> String {
    let mut sum = String::new();
    for term in &comparison.terms {
        sum += match (sum.is_empty(), term.coefficient < 0) {
            (true, true) => "-",
            (true, false) => "",
            (false, true) => " - ",
            (false, false) => " + ",
        };
        if term.coefficient.unsigned_abs() != 1 {
            sum += &format!("{}*", term.coefficient.unsigned_abs());
        }
        sum += &word(term);
    }
    sum
}
