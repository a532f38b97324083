//! The page's own sums: every rule worked out as it is written, in ordinary arithmetic, without the library or the record.

use crate::board::Setting;
use crate::literals::{Part, Said, Side};
use crate::sheet::{Rule, Sheet};
use basmuthar::Refusal;

/// The library's refusals of values that break a rule, and of values outside their bounds.
const DOES_NOT_HOLD: u64 = 13;
const OUTSIDE: u64 = 14;

/// What the sums say of a placement.
pub struct Checked<'a> {
    pub broken: Vec<&'a Rule>,
    /// The numbers whose values are outside their bounds.
    pub outside: Vec<u16>,
}

pub fn checked<'a>(sheet: &'a Sheet, setting: &Setting) -> Checked<'a> {
    let is_broken = |rule: &&Rule| !rule.parts.iter().any(|part| part_holds(part, setting));
    let is_outside = |number: &u16| {
        let declared = &sheet.board.numbers[usize::from(*number)];
        let value = setting.numbers[usize::from(*number)];
        value < declared.lower.into() || value > declared.upper.into()
    };
    Checked {
        broken: sheet.rules.iter().filter(is_broken).collect(),
        outside: (0..sheet.board.numbers.len() as u16).filter(is_outside).collect(),
    }
}

impl Checked<'_> {
    pub fn is_sound(&self) -> bool {
        self.broken.is_empty() && self.outside.is_empty()
    }

    /// Whether Judge says the same: also where the first fault is.
    pub fn agrees_with(&self, judged: Result<(), Refusal>) -> bool {
        match judged {
            Ok(()) => self.is_sound(),
            Err(Refusal { number: OUTSIDE, detail }) => {
                self.outside.first().map(|number| u64::from(*number)) == Some(detail)
            }
            Err(Refusal { number: DOES_NOT_HOLD, detail }) => {
                let is_here = |rule: &&Rule| rule.clauses.contains(&(detail as usize));
                self.outside.is_empty() && self.broken.first().is_some_and(is_here)
            }
            Err(_) => false,
        }
    }
}

pub fn part_holds(part: &Part, setting: &Setting) -> bool {
    match &part.said {
        Said::Choice { number, wanted } => {
            (setting.choices[usize::from(*number) - 1] == 1) == *wanted
        }
        Said::Comparison { left, sign, right } => {
            let (left, right) = (side_value(left, setting), side_value(right, setting));
            match *sign {
                "<=" => left <= right,
                ">=" => left >= right,
                "<" => left < right,
                ">" => left > right,
                "=" => left == right,
                "!=" => left != right,
                sign => unreachable!("{sign} is none of the six signs"),
            }
        }
    }
}

/// By how much a comparison that holds could be missed and would still hold; one that has no such room has none.
pub fn room_of(part: &Part, setting: &Setting) -> Option<i64> {
    let Said::Comparison { left, sign, right } = &part.said else {
        return None;
    };
    let less = side_value(right, setting) - side_value(left, setting);
    match *sign {
        "<=" => Some(less),
        ">=" => Some(-less),
        "<" => Some(less - 1),
        ">" => Some(-less - 1),
        _ => None,
    }
}

/// The numbers that a rule compares.
pub fn numbers_of(rule: &Rule) -> Vec<u16> {
    let sides = rule.parts.iter().flat_map(|part| match &part.said {
        Said::Choice { .. } => Vec::new(),
        Said::Comparison { left, right, .. } => vec![left, right],
    });
    let mut numbers = Vec::new();
    for (_, number) in sides.flat_map(|side| &side.sum.terms) {
        if !numbers.contains(number) {
            numbers.push(*number);
        }
    }
    numbers
}

fn side_value(side: &Side, setting: &Setting) -> i64 {
    let value_of = |number: u16| i64::from(setting.numbers[usize::from(number)]);
    let products = side.sum.terms.iter().map(|(factor, number)| factor * value_of(*number));
    products.sum::<i64>() + side.sum.constant
}
