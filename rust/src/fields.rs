//! A record written field by field, with a note of where each field begins and what it belongs to.

use crate::builder::{Comparison, Literal};

/// A field of a record.
#[derive(Debug, Clone, Copy, PartialEq, Eq)]
pub struct Field {
    /// The offset of its first byte.
    pub place: usize,
    /// What it says, and within which range.
    pub says: &'static str,
    pub part: Part,
}

/// A part of a board; numbers, rules and literals are counted from 0.
#[derive(Debug, Clone, Copy, PartialEq, Eq)]
pub enum Part {
    AllNumbers,
    AllChoices,
    AllRules,
    /// The lower bound of a number.
    Lower(usize),
    /// The upper bound of a number.
    Upper(usize),
    Rule(usize),
    /// A rule and the place of a literal in it.
    Literal(usize, usize),
}

pub struct Writer {
    record: Vec<u8>,
    fields: Vec<Field>,
}

impl Writer {
    /// A record with its version, room for its length, and its three counts.
    pub fn new(numbers: usize, choices: usize, rules: usize) -> Writer {
        let mut writer = Writer { record: vec![1, 0, 0, 0, 0], fields: Vec::new() };
        let counts = [
            (numbers, "the count of numbers, 0 to 1,024", Part::AllNumbers),
            (choices, "the count of choices, 0 to 4,096", Part::AllChoices),
            (rules, "the count of clauses, 0 to 4,096", Part::AllRules),
        ];
        for (count, says, part) in counts {
            let count = u16::try_from(count).unwrap_or(u16::MAX);
            writer.put(&count.to_be_bytes(), says, part);
        }
        writer
    }

    pub fn put_bounds(&mut self, index: usize, (lower, upper): (i16, i16)) {
        self.put(&lower.to_be_bytes(), "a lower bound", Part::Lower(index));
        self.put(&upper.to_be_bytes(), "an upper bound", Part::Upper(index));
    }

    pub fn put_rule(&mut self, index: usize, rule: &[Literal]) {
        let says = "the count of literals of a rule, 0 to 64";
        self.put(&[count_byte(rule.len())], says, Part::Rule(index));
        for (place, literal) in rule.iter().enumerate() {
            let part = Part::Literal(index, place);
            match literal {
                Literal::Choice { number, wanted } => {
                    self.put(&[u8::from(!wanted)], "a literal's kind", part);
                    self.put(&number.to_be_bytes(), "a choice's number", part);
                }
                Literal::Comparison(comparison) => self.put_comparison(comparison, part),
            }
        }
    }

    fn put_comparison(&mut self, comparison: &Comparison, part: Part) {
        self.put(&[2], "a literal's kind", part);
        self.put(&[count_byte(comparison.terms.len())], "the count of terms, 1 to 3", part);
        for term in &comparison.terms {
            let says = "a coefficient, from -64 to 64";
            self.put(&term.coefficient.to_be_bytes(), says, part);
            self.put(&term.variable.to_be_bytes(), "a term's number", part);
        }
        let says = "a limit, from -1,000,000 to 1,000,000";
        self.put(&comparison.limit.to_be_bytes(), says, part);
    }

    fn put(&mut self, bytes: &[u8], says: &'static str, part: Part) {
        let place = self.record.len();
        self.fields.push(Field { place, says, part });
        self.record.extend_from_slice(bytes);
    }

    /// The last field that begins at or before a place.
    pub fn field_at(&self, place: usize) -> Option<Field> {
        let after = self.fields.partition_point(|field| field.place <= place);
        self.fields.get(after.checked_sub(1)?).copied()
    }

    /// The record, with the length of what follows its head put in.
    pub fn record(mut self) -> Vec<u8> {
        let length = u32::try_from(self.record.len() - 5).unwrap_or(u32::MAX);
        self.record[1..5].copy_from_slice(&length.to_be_bytes());
        self.record
    }
}

/// A count that has no room is written as 255, which the library refuses as well.
fn count_byte(count: usize) -> u8 {
    u8::try_from(count).unwrap_or(u8::MAX)
}
