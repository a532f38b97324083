//! `board record`: the record of a board.

use crate::opened::Opened;
use crate::output::put;
use crate::trouble::Trouble;

pub fn run(file: &str) -> Result<bool, Trouble> {
    put(&Opened::open(file)?.record)
}
