//! The record and the values that a page was made from, named by SHA-256, which others can work out by their own tools.

use super::html::{escaped, kept_apart};
use super::look::Look;
use crate::board::Setting;
use crate::sha256::sha256;
use crate::sheet::Sheet;
use crate::wording::yes_or_no;

/// So many digits are told on every page, which is enough to tell loose sheets apart.
const SHORT: usize = 12;

pub struct Hashes {
    board: String,
    record: String,
    bytes: usize,
    values: String,
}

impl Hashes {
    pub fn of(look: &Look) -> Hashes {
        Hashes {
            board: look.opened.short_name().to_string(),
            record: sha256(&look.opened.record),
            bytes: look.opened.record.len(),
            values: sha256(values_text(look.sheet, look.setting).as_bytes()),
        }
    }

    pub fn words(&self) -> String {
        let Hashes { record, bytes, values, .. } = self;
        format!(
            "<p class=\"hashes\">Record of {bytes} bytes, SHA-256 <code>{record}</code><br>\n\
             Values, SHA-256 <code>{values}</code></p>\n"
        )
    }

    /// A line at the head of every further page.
    pub fn head(&self) -> String {
        let (record, values) = (&self.record[..SHORT], &self.values[..SHORT]);
        format!(
            "<p class=\"head\">{}, record {}…, values {}…</p>\n",
            kept_apart(&self.board),
            escaped(record),
            escaped(values)
        )
    }
}

/// Every value in a line as `board place` prints it, without comments and in the order of bytes.
pub fn values_text(sheet: &Sheet, setting: &Setting) -> String {
    let numbers = (0_u16..).zip(sheet.board.numbers.iter().zip(&setting.numbers));
    let numbers = numbers.map(|(number, (declared, value))| {
        format!("{} = {}\n", declared.name, sheet.value_words(number, (*value).into()))
    });
    let choices = sheet.board.choices.iter().zip(&setting.choices);
    let choices = choices.map(|(name, byte)| format!("{name} = {}\n", yes_or_no(*byte)));
    let mut lines: Vec<String> = numbers.chain(choices).collect();
    lines.sort();
    lines.concat()
}
