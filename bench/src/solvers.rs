//! How long solvers take to read a text, by their own account: their figures have steps of 10 ms.

use std::fs;
use std::path::{Path, PathBuf};
use std::process::Command;

/// A solver whose report tells how long it read: the words by which it only reads, and what stands before and behind the
/// seconds.
struct Solver {
    name: &'static str,
    words: &'static [&'static str],
    before: &'static str,
    behind: &'static str,
}

const SOLVERS: [Solver; 2] = [
    Solver {
        name: "minisat",
        words: &["-no-pre", "-dimacs=/dev/null"],
        before: "Parse time:",
        behind: " s ",
    },
    Solver {
        name: "cadical",
        words: &["-c", "0", "-P0"],
        before: "clauses in",
        behind: " seconds process time",
    },
];

/// Shorter texts are read in a few steps of a solver's figures.
const SHORTEST_TEXT: usize = 4_000_000;

/// The seconds of each solver that is there; none for a text that is too short to tell.
pub fn reading_seconds(text: &[u8]) -> Vec<(&'static str, f64)> {
    if text.len() < SHORTEST_TEXT {
        return Vec::new();
    }
    let file = Written::new(text);
    SOLVERS.iter().filter_map(|solver| Some((solver.name, solver.seconds(&file.0)?))).collect()
}

impl Solver {
    fn seconds(&self, file: &Path) -> Option<f64> {
        let output = Command::new(self.name).args(self.words).arg(file).output().ok()?;
        self.told(&String::from_utf8_lossy(&output.stdout))
    }

    /// The seconds in a report.
    fn told(&self, report: &str) -> Option<f64> {
        let line = report.lines().find(|line| line.contains(self.before))?;
        let (_, rest) = line.split_once(self.before)?;
        rest.split_once(self.behind)?.0.trim().parse().ok()
    }
}

/// A file of this program's own, which goes when it is dropped.
struct Written(PathBuf);

impl Written {
    fn new(text: &[u8]) -> Written {
        let file = std::env::temp_dir().join(format!("basmuthar-bench-{}.cnf", std::process::id()));
        fs::write(&file, text).expect("the folder for temporary files has room for a text");
        Written(file)
    }
}

impl Drop for Written {
    fn drop(&mut self) {
        // A file that cannot be removed is the system's to clear away.
        let _ = fs::remove_file(&self.0);
    }
}

#[cfg(test)]
mod tests {
    use super::*;

    #[test]
    fn seconds_are_found_in_a_report() {
        let minisat = "|  Number of clauses:  4  |\n|  Parse time:                   0.09 s                 |";
        assert_eq!(SOLVERS[0].told(minisat), Some(0.09));
        let cadical = "c opening file\nc parsed 400000 clauses in 0.13 seconds process time\n";
        assert_eq!(SOLVERS[1].told(cadical), Some(0.13));
        assert_eq!(SOLVERS[0].told("ERROR! Could not open file"), None);
    }
}
