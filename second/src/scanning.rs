//! Reading text byte by byte: the first byte that no good text has there is refused with 18, or the end.

use crate::refusal::{refusal, refuse_if, Refusal};

/// The refusal of bad text.
pub const BAD_TEXT: u8 = 18;

pub struct Scanner<'a> {
    text: &'a [u8],
    /// The offset of the byte to come; at the end, the text's length.
    place: usize,
}

impl Scanner<'_> {
    pub fn of(text: &[u8]) -> Scanner<'_> {
        Scanner { text, place: 0 }
    }

    /// The byte to come, if there is one.
    pub fn next(&self) -> Option<u8> {
        self.text.get(self.place).copied()
    }

    /// No good text goes on, or ends, in this way here.
    fn wrong(&self) -> Refusal {
        refusal(BAD_TEXT, self.place)
    }

    /// Passes over these bytes, each of which has to come.
    pub fn pass(&mut self, bytes: &[u8]) -> Result<(), Refusal> {
        for &byte in bytes {
            if self.next() != Some(byte) {
                return Err(self.wrong());
            }
            self.place += 1;
        }
        Ok(())
    }

    /// Nothing may come any more.
    pub fn end(&self) -> Result<(), Refusal> {
        match self.next() {
            Some(_) => Err(self.wrong()),
            None => Ok(()),
        }
    }

    /// Whether a space or a newline comes.
    fn separator_comes(&self) -> bool {
        matches!(self.next(), Some(b' ' | b'\n'))
    }

    /// A space or a newline has to come.
    pub fn expect_separator(&self) -> Result<(), Refusal> {
        if self.separator_comes() {
            Ok(())
        } else {
            Err(self.wrong())
        }
    }

    /// Passes over the spaces and newlines that come, if any.
    pub fn skip_separators(&mut self) {
        while self.separator_comes() {
            self.place += 1;
        }
    }

    /// A number without a sign, refused at the digit that makes it too great.
    pub fn count(&mut self, most: u64) -> Result<u64, Refusal> {
        self.digits(most, None)
    }

    /// A number from -most to most, refused at its first byte where it is beyond that.
    pub fn number(&mut self, most: u64) -> Result<i64, Refusal> {
        let start = self.place;
        if self.next() != Some(b'-') {
            return Ok(self.digits(most, Some(start))? as i64);
        }
        // No number but 0 is good where the most is 0, and 0 has no sign.
        refuse_if(most == 0, BAD_TEXT, start)?;
        self.place += 1;
        if self.next() == Some(b'0') {
            return Err(self.wrong());
        }
        Ok(-(self.digits(most, Some(start))? as i64))
    }

    /// Digits without a leading zero; too great a number is refused at its start, or else at the digit.
    fn digits(&mut self, most: u64, start: Option<usize>) -> Result<u64, Refusal> {
        let mut value = self.next_digit().ok_or(self.wrong())?;
        loop {
            refuse_if(value > most, BAD_TEXT, start.unwrap_or(self.place))?;
            self.place += 1;
            match self.next_digit() {
                None => return Ok(value),
                Some(_) if value == 0 => return Err(self.wrong()),
                Some(digit) => value = 10 * value + digit,
            }
        }
    }

    /// The value of the digit that comes, if one does.
    fn next_digit(&self) -> Option<u64> {
        let byte = self.next().filter(u8::is_ascii_digit)?;
        Some(u64::from(byte - b'0'))
    }
}
