//! `board join`: two copies of a board's text that were changed apart, joined to one.

use crate::complaint::{Complaint, Spot};
use crate::join::{Joined, Text};
use crate::opened::Opened;
use crate::output::put;
use crate::sheet::read_sheet;
use crate::trouble::Trouble;
use std::io::{self, Write};

/// The joined text has no file yet.
const NAME: &str = "the joined board";

const KEEP_OR_STRIKE: &str = "Strike this line too, or keep the name, and join again.";

/// Printed where there is no joined text. An empty text would be a board, with a placement.
const NOT_JOINED: &str = "not joined: what is to be decided stands on standard error\n";

pub fn run(base: &str, copies: [&str; 2]) -> Result<bool, Trouble> {
    match joined_text(base, copies) {
        Ok((text, notes)) => {
            put(text.as_bytes())?;
            // Where standard error takes nothing, the joined text is still all there.
            let _ = io::stderr().write_all(notes.as_bytes());
            Ok(true)
        }
        Err(words) => put(NOT_JOINED.as_bytes()).and(Err(words.into())),
    }
}

/// The joined text, which is a board, and what people may want to know of it.
fn joined_text(base: &str, copies: [&str; 2]) -> Result<(String, String), String> {
    let base = Text::open(base)?;
    let [one, two] = [Text::open(copies[0])?, Text::open(copies[1])?];
    let joined = Joined::of(&base, [&one, &two]);
    if !joined.conflicts.is_empty() {
        return Err(joined.conflicts.join("\n\n"));
    }
    let text = joined.text();
    let sheet = read_sheet(&text).map_err(|complaint| at_origin(&joined, complaint))?;
    Opened::of(NAME, text.clone(), sheet)?;
    Ok((text, joined.notes.concat()))
}

/// A complaint about the joined text at the place that its line comes from, with who has struck a name that it uses.
fn at_origin(joined: &Joined, complaint: Complaint) -> String {
    let Some(source) = joined.sources.get(complaint.spot.line - 1) else {
        return complaint.shown(NAME, &joined.text());
    };
    let (text, line) = joined.origin(*source);
    let words = &text.lines[line].words;
    let struck = words.iter().find_map(|name| Some((name, joined.struck(name)?)));
    let spot = Spot { line: line + 1, ..complaint.spot };
    let lines: Vec<&str> = text.lines.iter().map(|line| line.text.as_str()).collect();
    let shown = Complaint { spot, ..complaint }.shown(&text.name, &lines.join("\n"));
    match struck {
        Some((name, (copy, line))) => {
            let (place, copy) = (joined.base().place(line), &copy.name);
            format!("{shown}\n`{name}` is declared in {place}, and {copy} declares it no more.\n{KEEP_OR_STRIKE}")
        }
        None => shown,
    }
}
