//! `board text`: a record as a readable board.

use crate::opened::read_record;
use crate::output::put;
use crate::reading::board_of;
use crate::trouble::Trouble;
use crate::wording::board_words;

pub fn run(file: &str) -> Result<bool, Trouble> {
    let record = read_record(file)?;
    basmuthar::size(&record).map_err(|refusal| format!("{file}: {refusal}"))?;
    put(board_words(&board_of(&record)).as_bytes())
}
