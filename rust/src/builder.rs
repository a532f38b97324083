//! Boards put together number by number and rule by rule, and written as records.

use crate::fields::{Field, Writer};

/// One of the literals of a rule has to hold.
#[derive(Debug, Clone, PartialEq, Eq)]
pub enum Literal {
    /// Holds where the choice, counted from 1, is yes, or no, as is wanted.
    Choice {
        number: u16,
        wanted: bool,
    },
    Comparison(Comparison),
}

/// Says that the sum of the terms is at most the limit.
#[derive(Debug, Clone, PartialEq, Eq)]
pub struct Comparison {
    pub terms: Vec<Term>,
    pub limit: i32,
}

/// A number, counted from 0, so many times.
#[derive(Debug, Clone, Copy, PartialEq, Eq)]
pub struct Term {
    pub coefficient: i8,
    pub variable: u16,
}

/// A board that is being put together: numbers with bounds, choices, and rules.
///
/// It takes everything that has room in a record's fields; what 01 does not admit, the library refuses. A count that has no
/// room in its field is written as the greatest that has, which the library refuses too.
///
/// ```
/// use basmuthar::{Builder, Literal};
///
/// // Two firings of 12 and 10 hours in one kiln, one after the other.
/// let mut board = Builder::new();
/// let biscuit = board.number(0, 10);
/// let glaze = board.number(0, 12);
/// board.rule([Literal::follows(biscuit, 12, glaze), Literal::follows(glaze, 10, biscuit)]);
/// let record = board.record();
/// assert!(basmuthar::judge(&record, &[0, 12], &[]).is_ok());
/// assert!(basmuthar::judge(&record, &[0, 11], &[]).is_err());
/// ```
#[derive(Debug, Clone, Default, PartialEq, Eq)]
pub struct Builder {
    numbers: Vec<(i16, i16)>,
    choices: usize,
    rules: Vec<Vec<Literal>>,
}

impl Builder {
    pub fn new() -> Builder {
        Builder::default()
    }

    /// Adds an integer variable with its lower and upper bound, and tells its number, counted from 0.
    pub fn number(&mut self, lower: i16, upper: i16) -> u16 {
        self.numbers.push((lower, upper));
        at_most_u16(self.numbers.len() - 1)
    }

    /// Adds a Boolean variable, and tells its number, counted from 1.
    pub fn choice(&mut self) -> u16 {
        self.choices += 1;
        at_most_u16(self.choices)
    }

    /// Adds a rule, which holds where one of its literals does; without any it cannot hold.
    pub fn rule(&mut self, literals: impl IntoIterator<Item = Literal>) {
        self.rules.push(literals.into_iter().collect());
    }

    /// The record of the board.
    pub fn record(&self) -> Vec<u8> {
        self.written().record()
    }

    /// The field of the record in which a place is: what a refusal's detail points at.
    pub fn field_at(&self, place: usize) -> Option<Field> {
        self.written().field_at(place)
    }

    fn written(&self) -> Writer {
        let mut writer = Writer::new(self.numbers.len(), self.choices, self.rules.len());
        for (index, bounds) in self.numbers.iter().enumerate() {
            writer.put_bounds(index, *bounds);
        }
        for (index, rule) in self.rules.iter().enumerate() {
            writer.put_rule(index, rule);
        }
        writer
    }
}

impl Literal {
    pub fn yes(choice: u16) -> Literal {
        Literal::Choice { number: choice, wanted: true }
    }

    pub fn no(choice: u16) -> Literal {
        Literal::Choice { number: choice, wanted: false }
    }

    /// The sum of coefficients times numbers is at most the limit.
    pub fn at_most(terms: impl IntoIterator<Item = (i8, u16)>, limit: i32) -> Literal {
        let terms = terms.into_iter().map(|(coefficient, variable)| Term { coefficient, variable });
        Literal::Comparison(Comparison { terms: terms.collect(), limit })
    }

    /// The number `earlier`, so many hours later, is not after `later`.
    pub fn follows(earlier: u16, hours: i32, later: u16) -> Literal {
        Literal::at_most([(1, earlier), (-1, later)], -hours)
    }
}

/// A number that has no room is none of the board in any case: a record has far fewer.
fn at_most_u16(number: usize) -> u16 {
    u16::try_from(number).unwrap_or(u16::MAX)
}

#[cfg(test)]
mod tests {
    use super::*;
    use crate::{size, Part, Refusal};

    /// 000's Example 2: two starts in 0..2 that may not be equal.
    fn unequal_starts() -> Builder {
        let mut board = Builder::new();
        let (x, y) = (board.number(0, 2), board.number(0, 2));
        board.rule([Literal::follows(x, 1, y), Literal::at_most([(-1, x), (1, y)], -1)]);
        board
    }

    #[test]
    fn the_bytes_are_those_of_case_13() {
        let expected = [
            "01 00000027 0002 0000 0001 0000 0002 0000 0002 02",
            "02 02 01 0000 FF 0001 FFFFFFFF",
            "02 02 FF 0000 01 0001 FFFFFFFF",
        ];
        let expected = expected.concat().replace(' ', "");
        let record = unequal_starts().record();
        let bytes: Vec<String> = record.iter().map(|byte| format!("{byte:02X}")).collect();
        assert_eq!(bytes.concat(), expected);
    }

    #[test]
    fn choices_and_rules_without_literals_are_written() {
        let mut board = Builder::new();
        let (first, second) = (board.choice(), board.choice());
        board.rule([Literal::yes(first), Literal::no(second)]);
        board.rule([]);
        let expected = [1, 0, 0, 0, 14, 0, 0, 0, 2, 0, 2, 2, 0, 0, 1, 1, 0, 2, 0];
        assert_eq!(board.record(), expected);
    }

    #[test]
    fn every_place_belongs_to_a_part() {
        let board = unequal_starts();
        let part = |place| board.field_at(place).map(|field| (field.place, field.part));
        assert_eq!(part(4), None);
        assert_eq!(part(5), Some((5, Part::AllNumbers)));
        assert_eq!(part(10), Some((9, Part::AllRules)));
        assert_eq!(part(13), Some((13, Part::Upper(0))));
        assert_eq!(part(15), Some((15, Part::Lower(1))));
        assert_eq!(part(19), Some((19, Part::Rule(0))));
        assert_eq!(part(23), Some((23, Part::Literal(0, 0))));
        assert_eq!(part(43), Some((40, Part::Literal(0, 1))));
    }

    #[test]
    fn counts_without_room_are_refused_and_not_cut() {
        let refused = |number, detail| Err(Refusal { number, detail });
        let mut literals = Builder::new();
        let choice = literals.choice();
        literals.rule(vec![Literal::yes(choice); 256]);
        assert_eq!(size(&literals.record()), refused(4, 11));
        let mut terms = Builder::new();
        let number = terms.number(0, 1);
        terms.rule([Literal::at_most(vec![(1, number); 257], 0)]);
        assert_eq!(size(&terms.record()), refused(4, 17));
        let mut choices = Builder::new();
        for _ in 0..65_536 {
            choices.choice();
        }
        assert_eq!(size(&choices.record()), refused(4, 7));
    }
}
