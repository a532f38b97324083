//! What stops a command: the status that the program ends with, and the words for the user.

/// Every status of the program but 0.
#[derive(Debug, Clone, Copy, PartialEq, Eq)]
pub enum Status {
    /// A board, a name, a value or a reply is refused, or does not hold.
    Refused = 1,
    /// The words after `board` are wrong, or standard output or a page takes nothing.
    WrongUse = 2,
    /// The solver says that there is no solution.
    NoSolution = 3,
    /// The solver says neither yes nor no.
    NoVerdict = 4,
    /// The solver cannot be started, is killed, ends with an error status or contradicts itself.
    SolverFailed = 5,
    /// The solver says yes, and its model does not bear it out.
    WrongYes = 6,
    /// The time that the user gave is up.
    TimeIsUp = 7,
}

#[derive(Debug, PartialEq, Eq)]
pub struct Trouble {
    pub status: Status,
    pub words: String,
    /// Whether what the solver said before is not to be gone by either.
    pub casts_doubt: bool,
}

impl Trouble {
    pub fn new(status: Status, words: impl Into<String>) -> Trouble {
        let words = words.into();
        Trouble { status, words, casts_doubt: false }
    }

    pub fn casting_doubt(self) -> Trouble {
        Trouble { casts_doubt: true, ..self }
    }
}

/// Words alone are a refusal.
impl From<String> for Trouble {
    fn from(words: String) -> Trouble {
        Trouble::new(Status::Refused, words)
    }
}
