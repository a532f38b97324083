//! `board model`: a solver's reply as values in words, decoded and judged by the library.

use crate::opened::Opened;
use crate::output::put;
use crate::placement::placement_words;
use crate::reply::{read_reply, Reply};
use crate::solution::{decoded, no_solution};
use crate::trouble::{Status, Trouble};
use std::io::{self, Read};

pub fn run(file: &str) -> Result<bool, Trouble> {
    let opened = Opened::open(file)?;
    let mut bytes = Vec::new();
    io::stdin().read_to_end(&mut bytes).map_err(|error| format!("standard input: {error}"))?;
    let text = String::from_utf8_lossy(&bytes);
    let reply = read_reply(&text, opened.sizes.variables)
        .map_err(|unread| unread.complaint.shown("the reply", &text))?;
    match reply {
        Reply::NoSolution => Err(no_solution(file, "the solver says no")?),
        Reply::Unknown => {
            let words = "the reply: the solver says neither yes nor no";
            Err(Trouble::new(Status::NoVerdict, words))
        }
        Reply::Model(model) => {
            let setting = decoded(&opened, &model)?;
            put(placement_words(&opened.sheet, &setting).as_bytes())
        }
    }
}
