//! A refusal: its number, its detail, and the sentence that says both in plain words.

use std::error::Error;
use std::fmt;

/// What is wrong with an input, and where.
///
/// | number | when | detail |
/// |---|---|---|
/// | 1 | the record has more than 65,536 bytes | 0 |
/// | 2 | it has fewer than 5 bytes, or its stated length is not its length less 5 | 0 |
/// | 3 | its version is not 1 | 0 |
/// | 4 | a count is outside its range | place |
/// | 5 | a bound is outside its range, or an upper is below its lower | place |
/// | 6 | a kind byte is above 2, or a Boolean number is not of the board | place |
/// | 7 | a coefficient is 0 or out of range | place |
/// | 8 | a field runs past the end, or bytes are left over after the last clause | place |
/// | 9 | the clause list would have more than 2,000,000,000 numbers | 0 |
/// | 10 | the lent clause list or text is too short | the length wanted |
/// | 11 | another lent list has the wrong length | the length wanted |
/// | 12 | a model byte, Boolean byte or reply byte is not 0 or 1 | index |
/// | 13 | a clause does not hold | its number from 0 |
/// | 14 | a value is outside its bounds | index |
/// | 15 | a term's variable is unknown: the record does not have so many | place |
/// | 16 | a term's variable stands in an earlier term of its comparison | place |
/// | 17 | a comparison's constant is out of range | place |
/// | 18 | clause text or a reply departs from its form, holds a number beyond N, or has not M clauses | place in the text |
/// | 19 | a reply lacks a variable, or has it more than once | the least such SAT variable |
/// | 22 | the record does not have that integer variable | its number from 0 |
/// | 23 | replies are left over after the last question | how many |
///
/// A place is an offset in the record. A place in the text is an offset too; where something is missing, it is the text's length.
#[derive(Clone, Copy, PartialEq, Eq)]
pub struct Refusal {
    /// The number of the refusal, from 1.
    pub number: u64,
    /// The place, length, index, number or count that goes with it; 0 where nothing does.
    pub detail: u64,
}

/// What the detail of a refusal is.
#[derive(Debug, Clone, Copy)]
enum Detail {
    Nothing,
    Place,
    Length,
    Index,
    Clause,
    TextPlace,
    SatVariable,
    Variable,
    Count,
}

struct Row {
    number: u64,
    words: &'static str,
    detail: Detail,
}

const fn row(number: u64, words: &'static str, detail: Detail) -> Row {
    Row { number, words, detail }
}

const ROWS: [Row; 21] = [
    row(1, "a record above 65,536 bytes", Detail::Nothing),
    row(
        2,
        "a record of fewer than 5 bytes, or a stated length that is not the record's length less 5",
        Detail::Nothing,
    ),
    row(3, "a version other than 1", Detail::Nothing),
    row(4, "a count outside its range", Detail::Place),
    row(5, "a bound outside its range, or an upper below its lower", Detail::Place),
    row(6, "a kind byte above 2, or a Boolean number that the board does not have", Detail::Place),
    row(7, "a coefficient that is 0 or out of range", Detail::Place),
    row(
        8,
        "a field that runs past the end, or bytes left over after the last clause",
        Detail::Place,
    ),
    row(9, "a clause list of more than 2,000,000,000 numbers", Detail::Nothing),
    row(10, "a lent clause list or text that is too short", Detail::Length),
    row(11, "a lent list of the wrong length", Detail::Length),
    row(12, "a model, Boolean or reply byte that is not 0 or 1", Detail::Index),
    row(13, "a clause does not hold", Detail::Clause),
    row(14, "a value outside its bounds", Detail::Index),
    row(15, "a term's variable that the record does not have", Detail::Place),
    row(16, "a variable for the second time in a comparison", Detail::Place),
    row(17, "a constant out of range", Detail::Place),
    row(
        18,
        "text that departs from its form, holds a number beyond N, or has not M clauses",
        Detail::TextPlace,
    ),
    row(19, "a reply that lacks a variable, or has it more than once", Detail::SatVariable),
    row(22, "an integer variable that the record does not have", Detail::Variable),
    row(23, "replies left over after the last question", Detail::Count),
];

impl Refusal {
    /// Whether the detail is the offset in the record of what is wrong.
    pub fn has_place(&self) -> bool {
        matches!(self.row(), Some(row) if matches!(row.detail, Detail::Place))
    }

    fn row(&self) -> Option<&'static Row> {
        ROWS.iter().find(|row| row.number == self.number)
    }
}

/// The sentence, so that a `main` that returns a refusal tells what is wrong.
impl fmt::Debug for Refusal {
    fn fmt(&self, out: &mut fmt::Formatter) -> fmt::Result {
        fmt::Display::fmt(self, out)
    }
}

impl fmt::Display for Refusal {
    fn fmt(&self, out: &mut fmt::Formatter) -> fmt::Result {
        let Refusal { number, detail } = self;
        let Some(row) = self.row() else {
            return write!(out, "refusal {number}, detail {detail}");
        };
        write!(out, "refusal {number}: {}", row.words)?;
        match row.detail {
            Detail::Nothing => Ok(()),
            Detail::Place => write!(out, ", at byte {detail} of the record"),
            Detail::Length => write!(out, ", length {detail} is wanted"),
            Detail::Index => write!(out, ", at index {detail} counted from 0"),
            Detail::Clause => write!(out, ", clause {detail} counted from 0"),
            Detail::TextPlace => write!(
                out,
                ", at byte {detail} of the text: change that, or add what is missing if the text ends there"
            ),
            Detail::SatVariable => {
                write!(out, ", SAT variable {detail}: let the solver tell each of them once")
            }
            Detail::Variable => write!(out, ", variable {detail} counted from 0"),
            Detail::Count => write!(out, ", {detail} of them"),
        }
    }
}

impl Error for Refusal {}

#[cfg(test)]
mod tests {
    use super::*;

    #[test]
    fn every_number_has_its_sentence() {
        let rows: Vec<u64> = ROWS.iter().map(|row| row.number).collect();
        assert!(rows.is_sorted_by(|one, next| one < next), "numbers rise: {rows:?}");
        for number in (1..=19).chain([22, 23]) {
            let sentence = Refusal { number, detail: 5 }.to_string();
            assert!(sentence.starts_with(&format!("refusal {number}: ")), "{sentence}");
        }
    }

    #[test]
    fn a_sentence_names_the_refusal_and_the_place() {
        let refusal = Refusal { number: 5, detail: 13 };
        assert_eq!(
            refusal.to_string(),
            "refusal 5: a bound outside its range, or an upper below its lower, at byte 13 of the record"
        );
    }

    #[test]
    fn a_sentence_names_the_variable_or_how_many_replies() {
        let sentence = |number| Refusal { number, detail: 3 }.to_string();
        let unknown =
            "an integer variable that the record does not have, variable 3 counted from 0";
        assert_eq!(sentence(22), format!("refusal 22: {unknown}"));
        let left_over = "replies left over after the last question, 3 of them";
        assert_eq!(sentence(23), format!("refusal 23: {left_over}"));
    }

    #[test]
    fn a_sentence_about_text_names_the_place_and_what_to_do() {
        let sentence = |number| Refusal { number, detail: 15 }.to_string();
        assert_eq!(
            sentence(18),
            "refusal 18: text that departs from its form, holds a number beyond N, or has not M clauses, at byte 15 of \
             the text: change that, or add what is missing if the text ends there"
        );
        assert_eq!(
            sentence(19),
            "refusal 19: a reply that lacks a variable, or has it more than once, SAT variable 15: let the solver tell \
             each of them once"
        );
        assert!(
            !Refusal { number: 18, detail: 15 }.has_place(),
            "the place is not one in a record"
        );
    }

    #[test]
    fn an_unknown_number_is_still_said() {
        let refusal = Refusal { number: 99, detail: 7 };
        assert_eq!(refusal.to_string(), "refusal 99, detail 7");
    }
}
