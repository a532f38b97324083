//! A board's file, opened: read, written as a record, and accepted by the library.

use crate::blame;
use crate::complaint::{Complaint, Spot};
use crate::sheet::{read_sheet, Rule, Sheet};
use basmuthar::{Refusal, Sizes};
use std::fs;

/// The version that every record begins with, and no text.
const VERSION: u8 = 1;

pub struct Opened {
    name: String,
    text: String,
    pub sheet: Sheet,
    pub record: Vec<u8>,
    pub sizes: Sizes,
}

impl Opened {
    /// Opens a file, or says in words what is wrong with it.
    pub fn open(name: &str) -> Result<Opened, String> {
        let text = read_text(name)?;
        let sheet = read_sheet(&text).map_err(|complaint| complaint.shown(name, &text))?;
        Opened::of(name, text, sheet)
    }

    /// The same with only some of its rules.
    pub fn only(&self, is_kept: impl FnMut(&Rule) -> bool) -> Result<Opened, String> {
        Opened::of(&self.name, self.text.clone(), self.sheet.only(is_kept))
    }

    /// A text that is read.
    pub fn of(name: &str, text: String, sheet: Sheet) -> Result<Opened, String> {
        let builder = sheet.board.builder();
        let record = builder.record();
        let sizes = basmuthar::size(&record).map_err(|refusal| {
            match blame::of_record(&sheet, &builder, refusal) {
                Some(complaint) => complaint.shown(name, &text),
                None => format!("{name}: {refusal}"),
            }
        })?;
        Ok(Opened { name: name.to_string(), text, sheet, record, sizes })
    }

    pub fn text(&self) -> &str {
        &self.text
    }

    /// A line of the text, counted from 1.
    pub fn line(&self, number: usize) -> &str {
        self.text.lines().nth(number - 1).unwrap_or("").trim()
    }

    /// A refusal in words, at the place in the text that it belongs to.
    pub fn refused(&self, refusal: Refusal, spot: Option<Spot>) -> String {
        match spot {
            Some(spot) => Complaint::new(spot, refusal.to_string()).shown(&self.name, &self.text),
            None => format!("{}: {refusal}", self.name),
        }
    }

    /// The name of the file without its folders.
    pub fn short_name(&self) -> &str {
        self.name.rsplit('/').next().unwrap_or("")
    }

    /// The lines of the comment that the text begins with.
    pub fn first_comment(&self) -> impl Iterator<Item = &str> {
        let lines = self.text.lines().map(str::trim).skip_while(|line| line.is_empty());
        lines.map_while(|line| line.strip_prefix('#')).map(str::trim)
    }
}

/// The text of a file.
pub fn read_text(name: &str) -> Result<String, String> {
    let bytes = fs::read(name).map_err(|error| format!("{name}: {error}"))?;
    if bytes.first() == Some(&VERSION) {
        return Err(format!(
            "{name} is a record and no text; `board text {name}` writes it as text"
        ));
    }
    String::from_utf8(bytes)
        .map_err(|_| format!("{name} is no text of UTF-8; save it as UTF-8 and try again"))
}

/// The bytes of a file that should be a record.
pub fn read_record(name: &str) -> Result<Vec<u8>, String> {
    let bytes = fs::read(name).map_err(|error| format!("{name}: {error}"))?;
    if is_text(&bytes) {
        return Err(format!(
            "{name} is a text and no record; `board record {name}` makes a record"
        ));
    }
    Ok(bytes)
}

/// No record is like that: it has at least three counts of two bytes, and the first byte of each is small.
fn is_text(bytes: &[u8]) -> bool {
    let is_printed = |character: char| !character.is_control() || "\n\r\t".contains(character);
    let text = std::str::from_utf8(bytes);
    text.is_ok_and(|text| !text.is_empty() && text.chars().all(is_printed))
}
