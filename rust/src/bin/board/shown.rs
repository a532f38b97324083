//! A literal as it is written, with its values: `tiles + 20 = 52 is not <= 46`.

use crate::board::Setting;
use crate::literals::{Part, Said, Side};
use crate::sheet::Sheet;
use crate::signs::negated;
use crate::wording::yes_or_no;

/// A part with the values that it has at a setting, where it holds or does not, as is said.
pub fn part_words(sheet: &Sheet, part: &Part, setting: &Setting, holds: bool) -> String {
    match &part.said {
        Said::Choice { number, .. } if holds || part.is_condition => {
            choice_words(sheet, *number, setting)
        }
        Said::Choice { number, wanted } => {
            let wanted = yes_or_no(u8::from(*wanted));
            format!("{} ({wanted} is wanted)", choice_words(sheet, *number, setting))
        }
        Said::Comparison { left, sign, right } => {
            let (is, sign) = match (holds, part.is_condition) {
                (true, _) => ("is", *sign),
                // A condition is turned round, so it is met where the part does not hold.
                (false, true) => ("is", negated(sign)),
                (false, false) => ("is not", *sign),
            };
            let [left, right] = [left, right].map(|side| side_words(sheet, side, setting));
            format!("{left} {is} {sign} {right}")
        }
    }
}

fn choice_words(sheet: &Sheet, number: u16, setting: &Setting) -> String {
    let index = usize::from(number) - 1;
    format!("{} = {}", sheet.board.choices[index], yes_or_no(setting.choices[index]))
}

/// `tiles + 20 = 52`; a side without a name is what it is.
fn side_words(sheet: &Sheet, side: &Side, setting: &Setting) -> String {
    if side.sum.terms.is_empty() {
        return side.text.clone();
    }
    format!("{} = {}", side.text, value_words(sheet, side, setting))
}

/// The value of a side: clock hours, a duration, or a plain number.
fn value_words(sheet: &Sheet, side: &Side, setting: &Setting) -> String {
    let value_of = |number: u16| i64::from(setting.numbers[usize::from(number)]);
    let terms = &side.sum.terms;
    let value = terms.iter().map(|term| term.0 * value_of(term.1)).sum::<i64>() + side.sum.constant;
    let clocks = terms.iter().filter(|term| sheet.clocks.contains(&term.1));
    let has_clocks = clocks.clone().next().is_some();
    let weight = clocks.map(|term| term.0).sum::<i64>() + side.sum.clocks;
    match (sheet.week, weight) {
        (Some(week), 1) => week.words(value),
        (Some(week), 0) if has_clocks || side.sum.has_unit => week.duration_words(value),
        _ => value.to_string(),
    }
}
