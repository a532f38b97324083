//! The words of a line: names, numbers and symbols, each with its place.

use crate::complaint::{Complaint, Spot};
use crate::unknown_signs::plain_form;

#[derive(Debug, Clone, Copy, PartialEq, Eq)]
pub enum Word<'a> {
    Name(&'a str),
    Number(i64),
    Symbol(&'static str),
    /// What stands between two `"`.
    Text(&'a str),
    /// The end of the line, or of what stands before a comment.
    End,
}

/// Longer symbols stand before those that they begin with.
const SYMBOLS: [&str; 12] = ["<=", ">=", "!=", "..", "<", ">", "=", "+", "-", "*", ":", ","];

/// Names that mean something of their own.
const KEPT: [&str; 5] = ["number", "choice", "or", "not", "never"];

/// Larger numbers have no use on a board; sums of these stay far within 64 bits.
const GREATEST: i64 = 1_000_000_000;

/// A line's words, taken from the left.
#[derive(Clone, Copy)]
pub struct Words<'a> {
    line: &'a str,
    comment: &'a str,
    number: usize,
    /// How many bytes of the line are taken.
    taken: usize,
}

impl<'a> Words<'a> {
    /// The words of the line with this number.
    pub fn of(line: &'a str, number: usize) -> Words<'a> {
        let (line, comment) = line.split_at(comment_start(line));
        let comment = comment.trim_start_matches('#').trim();
        Words { line: line.trim_end(), comment, number, taken: 0 }
    }

    /// What stands behind the `#` of the line.
    pub fn comment(&self) -> &'a str {
        self.comment
    }

    /// The place of the next word.
    pub fn spot(&self) -> Spot {
        let before = &self.line[..self.line.len() - self.rest_of_line().len()];
        Spot { line: self.number, column: before.chars().count() + 1 }
    }

    /// The next word, which stays.
    pub fn peek(&self) -> Result<Word<'a>, Complaint> {
        Ok(self.first()?.0)
    }

    /// The word after the next, if both can be read.
    pub fn second(&self) -> Option<Word<'a>> {
        let mut later = *self;
        later.take().ok()?;
        later.peek().ok()
    }

    /// Takes the next word.
    pub fn take(&mut self) -> Result<Word<'a>, Complaint> {
        let (word, length) = self.first()?;
        self.taken = self.line.len() - self.rest_of_line().len() + length;
        Ok(word)
    }

    /// Takes the next word if it is this one.
    pub fn take_if(&mut self, word: Word) -> Result<bool, Complaint> {
        let is_next = self.peek()? == word;
        if is_next {
            self.take()?;
        }
        Ok(is_next)
    }

    /// Takes this symbol, or complains that it is not next.
    pub fn symbol(&mut self, symbol: &'static str) -> Result<(), Complaint> {
        if self.take_if(Word::Symbol(symbol))? {
            Ok(())
        } else {
            Err(self.expected(&format!("`{symbol}`")))
        }
    }

    /// Takes this word, or complains that it is not next.
    pub fn word(&mut self, word: &'static str) -> Result<(), Complaint> {
        if self.take_if(Word::Name(word))? {
            Ok(())
        } else {
            Err(self.expected(&format!("`{word}`")))
        }
    }

    /// Takes a text between two `"`, if one is next.
    pub fn text(&mut self) -> Result<Option<&'a str>, Complaint> {
        let Word::Text(text) = self.peek()? else {
            return Ok(None);
        };
        self.take()?;
        Ok(Some(text))
    }

    /// Takes a clock such as `08:00`, up to `24:00`, in minutes.
    pub fn clock(&mut self) -> Result<i64, Complaint> {
        let expected = self.expected("a clock such as 08:00");
        let (hours, rest) = digits_of(self.rest_of_line());
        let (minutes, _) = digits_of(rest.strip_prefix(':').unwrap_or(""));
        let minute =
            match (hours.len(), minutes.len(), hours.parse::<i64>(), minutes.parse::<i64>()) {
                (1 | 2, 2, Ok(hours), Ok(minutes)) if minutes < 60 => 60 * hours + minutes,
                _ => return Err(expected),
            };
        if minute > 24 * 60 {
            return Err(expected);
        }
        self.taken = self.line.len() - self.rest_of_line().len() + hours.len() + 1 + minutes.len();
        Ok(minute)
    }

    /// Takes a name that is free for numbers and choices.
    pub fn name(&mut self) -> Result<&'a str, Complaint> {
        match self.peek()? {
            Word::Name(name) if !KEPT.contains(&name) => {
                self.take()?;
                Ok(name)
            }
            _ => Err(self.expected("a name")),
        }
    }

    /// Takes a whole number, which may have a minus.
    pub fn integer(&mut self) -> Result<i64, Complaint> {
        let factor = if self.take_if(Word::Symbol("-"))? { -1 } else { 1 };
        let Word::Number(number) = self.peek()? else {
            return Err(self.expected("a whole number"));
        };
        self.take()?;
        Ok(factor * number)
    }

    /// Complains unless the line ends here.
    pub fn end(&self, otherwise: &str) -> Result<(), Complaint> {
        match self.peek()? {
            Word::End => Ok(()),
            _ => Err(self.expected(otherwise)),
        }
    }

    /// The complaint that something else than the next word was expected.
    pub fn expected(&self, what: &str) -> Complaint {
        let found = match self.first() {
            Err(complaint) => return complaint,
            Ok((Word::End, _)) => "the end of the line".to_string(),
            Ok((_, length)) => format!("`{}`", &self.rest_of_line()[..length]),
        };
        Complaint::new(self.spot(), format!("expected {what}, found {found}"))
    }

    /// What is left of the line, without its comment.
    pub fn rest_of_line(&self) -> &'a str {
        self.line[self.taken..].trim_start()
    }

    /// The next word and how many bytes it has.
    fn first(&self) -> Result<(Word<'a>, usize), Complaint> {
        let rest = self.rest_of_line();
        let Some(first) = rest.chars().next() else {
            return Ok((Word::End, 0));
        };
        if first.is_ascii_digit() {
            let digits = leading(rest, |character| character.is_ascii_digit());
            return Ok((Word::Number(self.number_of(digits)?), digits.len()));
        }
        if first.is_alphabetic() || first == '_' {
            let name = leading(rest, |character| character.is_alphanumeric() || character == '_');
            return Ok((Word::Name(name), name.len()));
        }
        if let Some(text) = rest.strip_prefix('"') {
            return self.text_of(text);
        }
        match SYMBOLS.iter().find(|symbol| rest.starts_with(**symbol)) {
            Some(symbol) => Ok((Word::Symbol(symbol), symbol.len())),
            None => Err(Complaint::new(
                self.spot(),
                format!(
                    "expected a name, a number or a sign, found `{first}`{}",
                    plain_form(first)
                ),
            )),
        }
    }

    /// A text whose first `"` is left off, and how many bytes it has with both.
    fn text_of(&self, text: &'a str) -> Result<(Word<'a>, usize), Complaint> {
        match text.split_once('"') {
            Some((text, _)) => Ok((Word::Text(text), text.len() + 2)),
            None => Err(Complaint::new(self.spot(), "expected a `\"` at the end of this text")),
        }
    }

    fn number_of(&self, digits: &str) -> Result<i64, Complaint> {
        match digits.parse() {
            Ok(number) if number <= GREATEST => Ok(number),
            _ => Err(Complaint::new(
                self.spot(),
                format!("expected a number up to 1,000,000,000, found {digits}"),
            )),
        }
    }
}

/// The characters at the start of a text that are of a kind.
fn leading(text: &str, is_of_kind: impl Fn(char) -> bool) -> &str {
    let end = text.find(|character| !is_of_kind(character));
    &text[..end.unwrap_or(text.len())]
}

/// The digits that a text begins with, and the rest.
fn digits_of(text: &str) -> (&str, &str) {
    text.split_at(leading(text, |character| character.is_ascii_digit()).len())
}

/// Where the comment of a line begins: at the first `#` that is in no text between two `"`.
fn comment_start(line: &str) -> usize {
    let mut is_inside = false;
    for (place, character) in line.char_indices() {
        match character {
            '"' => is_inside = !is_inside,
            '#' if !is_inside => return place,
            _ => {}
        }
    }
    line.len()
}
