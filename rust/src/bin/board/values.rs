//! Values for the numbers and choices of a board, given as `name=value` words or in files of them.

use crate::board::Setting;
use crate::clock::read_value;
use crate::complaint::Complaint;
use crate::opened::read_text;
use crate::sheet::{Named, Sheet};
use crate::words::{Word, Words};
use std::ops::RangeInclusive;

/// No number of a board has bounds beyond these.
const WIDEST: RangeInclusive<i64> = -4_096..=4_095;

/// What is set so far.
struct Given<'a> {
    sheet: &'a Sheet,
    numbers: Vec<Option<i32>>,
    choices: Vec<Option<u8>>,
}

/// The setting that these arguments give: each is a `name=value` word, or else the name of a file of them.
pub fn read_setting(arguments: &[&str], sheet: &Sheet) -> Result<Setting, String> {
    let mut given = Given {
        sheet,
        numbers: vec![None; sheet.board.numbers.len()],
        choices: vec![None; sheet.board.choices.len()],
    };
    if let Some(words) = torn_apart(arguments) {
        return Err(words);
    }
    for argument in arguments {
        if argument.contains('=') {
            given.read("the values", argument)?;
        } else {
            given.read(argument, &read_text(argument)?)?;
        }
    }
    given.complete()
}

/// What to write where a value was torn into several words: `x = 1`, or `mugs=Tue 08:00` without quotes.
fn torn_apart(arguments: &[&str]) -> Option<String> {
    let is_clock =
        |word: &str| word.contains(':') && word.starts_with(|c: char| c.is_ascii_digit());
    arguments.windows(2).find_map(|pair| {
        let (one, other) = (pair[0], pair[1]);
        if one.ends_with('=') || other.starts_with('=') {
            let name = one.trim_end_matches('=').trim();
            let help = format!("write {name}=VALUE, or put it in quotes: '{name} = VALUE'");
            return Some(format!("the values: expected no blanks about `=`; {help}"));
        }
        let is_torn = one.contains('=') && is_clock(other);
        is_torn.then(|| format!("the values: expected one word; put it in quotes: '{one} {other}'"))
    })
}

impl Given<'_> {
    fn read(&mut self, name: &str, text: &str) -> Result<(), String> {
        for (index, line) in text.lines().enumerate() {
            self.read_line(&mut Words::of(line, index + 1))
                .map_err(|complaint| complaint.shown(name, text))?;
        }
        Ok(())
    }

    fn read_line(&mut self, words: &mut Words) -> Result<(), Complaint> {
        while words.peek()? != Word::End {
            self.read_setting(words)?;
        }
        Ok(())
    }

    /// Reads `kiln = 12` or `shared = yes`.
    fn read_setting(&mut self, words: &mut Words) -> Result<(), Complaint> {
        let unknown = words.expected("the name of a number or a choice of the board");
        let spot = words.spot();
        let name = words.name()?;
        let Some(&named) = self.sheet.names.get(name) else {
            return Err(unknown);
        };
        words.symbol("=")?;
        let is_new = match named {
            Named::Number(number) => {
                let value = read_value(words, self.sheet)?;
                if !WIDEST.contains(&value) {
                    let words = format!("expected a value from -4,096 to 4,095, found {value}");
                    return Err(Complaint::new(spot, words));
                }
                let value = value as i32;
                self.numbers[usize::from(number)].replace(value).is_none()
            }
            Named::Choice(number) => {
                let value = read_yes_or_no(words)?;
                self.choices[usize::from(number) - 1].replace(value).is_none()
            }
            Named::Machine(_) => return Err(unknown),
        };
        if is_new {
            Ok(())
        } else {
            Err(Complaint::new(spot, format!("expected one value for `{name}`, found a second")))
        }
    }

    /// The setting, if nothing is left out.
    fn complete(self) -> Result<Setting, String> {
        let board = &self.sheet.board;
        let numbers = board.numbers.iter().map(|number| &number.name);
        let numbers = numbers.zip(self.numbers.iter().map(Option::is_none));
        let choices = board.choices.iter().zip(self.choices.iter().map(Option::is_none));
        let missing: Vec<&str> = numbers
            .chain(choices)
            .filter_map(|(name, is_missing)| is_missing.then_some(name.as_str()))
            .collect();
        if !missing.is_empty() {
            return Err(format!("expected a value for {}", missing.join(", ")));
        }
        Ok(Setting {
            numbers: self.numbers.into_iter().flatten().collect(),
            choices: self.choices.into_iter().flatten().collect(),
        })
    }
}

fn read_yes_or_no(words: &mut Words) -> Result<u8, Complaint> {
    let value = match words.peek()? {
        Word::Name("yes") => 1,
        Word::Name("no") => 0,
        _ => return Err(words.expected("`yes` or `no`")),
    };
    words.take()?;
    Ok(value)
}

#[cfg(test)]
mod tests {
    use super::*;
    use crate::sheet::read_sheet;

    fn read(arguments: &[&str]) -> Result<Setting, String> {
        let sheet = read_sheet("number kiln, loom : 0 .. 9\nchoice shared\n").unwrap();
        read_setting(arguments, &sheet)
    }

    #[test]
    fn values_may_stand_in_any_order() {
        let setting = Setting { numbers: vec![3, -4], choices: vec![1] };
        assert_eq!(read(&["shared=yes", "loom=-4", "kiln=3"]), Ok(setting.clone()));
        assert_eq!(read(&["shared = yes loom = -4 # late\nkiln = 3"]), Ok(setting));
    }

    #[test]
    fn values_left_out_given_twice_or_unknown_are_complained_about() {
        let rows: [(&[&str], &str); 5] = [
            (&["loom=4"], "expected a value for kiln, shared"),
            (&["loom=4 loom=5"], "expected one value for `loom`, found a second"),
            (&["wheel=4"], "expected the name of a number or a choice of the board, found `wheel`"),
            (&["loom=yes"], "expected a whole number, found `yes`"),
            (&["shared=1"], "expected `yes` or `no`, found `1`"),
        ];
        for (arguments, words) in rows {
            let complaint = read(arguments).unwrap_err();
            assert!(complaint.contains(words), "{complaint}");
        }
    }
}
