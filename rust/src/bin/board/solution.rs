//! A model as a solution: decoded and judged by the library; or that there is none.

use crate::blame;
use crate::board::Setting;
use crate::opened::Opened;
use crate::output::put;
use crate::trouble::{Status, Trouble};

/// What a model sets the numbers and choices to, after Judge has accepted it.
pub fn decoded(opened: &Opened, model: &[u8]) -> Result<Setting, String> {
    let board = &opened.sheet.board;
    let mut setting =
        Setting { numbers: vec![0; board.numbers.len()], choices: vec![0; board.choices.len()] };
    let Setting { numbers, choices } = &mut setting;
    basmuthar::decode(&opened.record, model, numbers, choices)
        .map_err(|refusal| opened.refused(refusal, blame::of_model(&opened.sheet, refusal)))?;
    basmuthar::judge(&opened.record, numbers, choices)
        .map_err(|refusal| opened.refused(refusal, blame::of_setting(&opened.sheet, refusal)))?;
    Ok(setting)
}

/// Prints that there is no solution, and gives the trouble that ends the program.
pub fn no_solution(file: &str, why: &str) -> Result<Trouble, Trouble> {
    put(b"# none: there is no solution\n")?;
    let help = "`board why` finds lines that cannot be kept together; `board show --broken` tells which rules a plan of \
        your own breaks.";
    let words = format!("{file}: there is no solution: {why}.\n{help}");
    Ok(Trouble::new(Status::NoSolution, words))
}
