//! `board sheet`: a placed board as a page that two keepers look through by hand.

use crate::opened::Opened;
use crate::output::put;
use crate::page::{page, Verdict};
use crate::trouble::{Status, Trouble};
use crate::values::read_setting;

pub fn run(file: &str, values: &[&str]) -> Result<bool, Trouble> {
    let opened = Opened::open(file)?;
    let setting = read_setting(values, &opened.sheet)?;
    let page = page(&opened, &setting);
    put(page.text.as_bytes())?;
    match page.verdict {
        Verdict::Sound => Ok(true),
        verdict => Err(not_sound(file, verdict)),
    }
}

/// The page is written, and says more.
pub fn not_sound(file: &str, verdict: Verdict) -> Trouble {
    let words = match verdict {
        Verdict::Disagreement => "Judge and the sheet's own sums do not agree",
        Verdict::Unforbidden(_) => "jobs meet on a machine, and no rule of the board forbids it",
        _ => "these values are no solution of the board",
    };
    let help =
        "The sheet is written and says so; `board show --broken` tells the same in a few lines.";
    Trouble::new(Status::Refused, format!("{file}: {words}.\n{help}"))
}
