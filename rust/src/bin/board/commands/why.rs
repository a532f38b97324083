//! `board why`: lines that cannot be kept together, found by questions to the user's own solver.

use crate::clash::{found_words, Found, Limit, Search};
use crate::opened::Opened;
use crate::output::put;
use crate::solver::Solver;
use crate::trouble::{Status, Trouble};

/// The seconds that a word gives, at least one.
pub fn seconds_of(word: &str) -> Option<u32> {
    word.parse().ok().filter(|seconds| *seconds > 0)
}

pub fn run(file: &str, solver: &Solver, seconds: Option<u32>) -> Result<bool, Trouble> {
    let opened = Opened::open(file)?;
    let mut search = Search::new(&opened, solver, seconds.map(Limit::seconds));
    if search.has_solution()? {
        let words = format!("{file} has a solution; `board place` shows one");
        return Err(Trouble::new(Status::Refused, words));
    }
    let ended = search.narrow();
    let found = search.found();
    match ended {
        Err(trouble) if trouble.casts_doubt => Err(trouble),
        _ if found.lines.is_empty() => Err(never_yes(file, solver)),
        Err(trouble) => told(&opened, &found).and(Err(trouble)),
        Ok(()) => told(&opened, &found),
    }
}

fn told(opened: &Opened, found: &Found) -> Result<bool, Trouble> {
    put(found_words(opened, found).as_bytes())
}

/// A solver that says no even where nothing is left that could be broken.
fn never_yes(file: &str, solver: &Solver) -> Trouble {
    let words =
        format!("a board without rules has a solution, and the solver {} says no", solver.program);
    let help = "Do not go by this solver; ask another one.";
    Trouble::new(Status::SolverFailed, format!("{file}: {words}.\n{help}"))
}
