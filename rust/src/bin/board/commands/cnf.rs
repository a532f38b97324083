//! `board cnf`: the clause list as DIMACS CNF, of any size.

use crate::clauses::Clauses;
use crate::opened::Opened;
use crate::output::put_by;
use crate::trouble::Trouble;

pub fn run(file: &str) -> Result<bool, Trouble> {
    let clauses = Clauses::of(&Opened::open(file)?)?;
    put_by(|out| clauses.write(out, &[]))
}
