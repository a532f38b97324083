//! Lines such as `if festival and tiles >= Tue 08:00 then mugs before tiles or rainy`.

use crate::complaint::Complaint;
use crate::literals::{read_part, Part};
use crate::rules::{add_rule, read_alternatives, Drafted};
use crate::sheet::Sheet;
use crate::words::{Word, Words};

/// Reads a condition: where all of the first part holds, one of the alternatives after `then` has to.
pub fn read_condition(words: &mut Words, sheet: &mut Sheet) -> Result<(), Complaint> {
    let spot = words.spot();
    let text = words.rest_of_line().to_string();
    words.take()?;
    let mut parts: Vec<Part> = Vec::new();
    loop {
        let part = read_part(words, sheet)?.turned_round()?;
        parts.push(Part { is_condition: true, ..part });
        if !words.take_if(Word::Name("and"))? {
            break;
        }
    }
    if !words.take_if(Word::Name("then"))? {
        let help = if words.peek()? == Word::Name("or") {
            " (for `or` write a line for each)"
        } else {
            ""
        };
        return Err(words.expected(&format!("`and` or `then`{help}")));
    }
    parts.extend(read_alternatives(words, sheet)?);
    let comment = words.comment().to_string();
    add_rule(sheet, Drafted { spot, text, comment, made_for: None, parts })
}
