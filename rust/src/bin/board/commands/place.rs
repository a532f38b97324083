//! `board place`: a placement of a board, found by the user's own solver, decoded and judged.

use super::sheet::not_sound;
use crate::board::Setting;
use crate::clauses::Clauses;
use crate::opened::Opened;
use crate::output::put;
use crate::page::{page, Verdict};
use crate::placement::placement_words;
use crate::solution::{decoded, no_solution};
use crate::solver::{Question, Said, Solver};
use crate::trouble::{Status, Trouble};
use std::fs;

/// With a name for it, the keepers' page of the placement is written too.
pub fn run(file: &str, page: Option<&str>, solver: &Solver) -> Result<bool, Trouble> {
    let opened = Opened::open(file)?;
    let clauses = Clauses::of(&opened)?;
    let words = format!("a placement of {file}");
    let question = Question { words, clauses: &clauses, added: &[] };
    match solver.ask(&question)? {
        Said::No => Err(no_solution(file, "the solver says no")?),
        Said::Yes(model) => {
            let setting = decoded(&opened, &model)
                .map_err(|refused| solver.wrong_yes(&question, &refused))?;
            put(placement_words(&opened.sheet, &setting).as_bytes())?;
            page.map_or(Ok(true), |name| write_page(file, name, &opened, &setting))
        }
    }
}

fn write_page(file: &str, name: &str, opened: &Opened, setting: &Setting) -> Result<bool, Trouble> {
    let page = page(opened, setting);
    fs::write(name, page.text).map_err(|error| {
        let help = "The values above are whole: `board sheet` makes the page of them.";
        Trouble::new(
            Status::WrongUse,
            format!("the page {name} cannot be written: {error}.\n{help}"),
        )
    })?;
    match page.verdict {
        Verdict::Sound => Ok(true),
        verdict => Err(not_sound(file, verdict)),
    }
}
