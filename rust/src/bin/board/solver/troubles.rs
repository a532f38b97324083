//! What goes wrong with a solver, in words that name the question and what can be done.

use super::{Question, Solver};
use crate::complaint::shortened;
use crate::reply::{Fault, Unread};
use crate::trouble::{Status, Trouble};
use std::io;

impl Solver<'_> {
    /// `closing at most 83? The solver cadical was killed by signal 9.`, and a line that says what to do.
    pub fn trouble(&self, question: &Question, status: Status, words: &str, help: &str) -> Trouble {
        let (asked, program) = (&question.words, self.program);
        Trouble::new(status, format!("{asked}? The solver {program} {words}\n{help}"))
    }

    pub fn contradiction(&self, question: &Question, words: &str) -> Trouble {
        let help = "Do not go by this solver; ask another one.";
        self.trouble(question, Status::SolverFailed, words, help).casting_doubt()
    }

    /// A yes whose model is refused in these words.
    pub fn wrong_yes(&self, question: &Question, refused: &str) -> Trouble {
        self.no_answer(question, &format!("says yes, and its model is refused:\n{refused}"))
    }

    /// A yes that its model does not bear out.
    pub fn no_answer(&self, question: &Question, words: &str) -> Trouble {
        let help = "A yes like this is no answer: look at the solver, or ask another one.";
        self.trouble(question, Status::WrongYes, words, help).casting_doubt()
    }

    pub(super) fn not_started(&self, question: &Question, error: io::Error) -> Trouble {
        let help = "Install it, or write the path of a program that may be run after `--`.";
        let words = format!("cannot be started: {error}.");
        self.trouble(question, Status::SolverFailed, &words, help)
    }

    pub(super) fn interrupted(&self, question: &Question) -> Trouble {
        let help = "Replies that were printed before still hold.";
        self.trouble(question, Status::SolverFailed, "was interrupted.", help)
    }

    pub(super) fn too_late(&self, question: &Question) -> Trouble {
        let help = "Give it more time (`--seconds`), or ask another solver.";
        self.trouble(question, Status::TimeIsUp, "has not replied when its time was up.", help)
    }

    /// A solver that failed is shown with the last line that it wrote to standard output.
    pub(super) fn failed(&self, question: &Question, how: &str, output: &str) -> Trouble {
        let last = output.lines().rev().find(|line| !line.trim().is_empty());
        let last = last.map(|line| format!("\nIts last line: {}", shortened(line)));
        let words = format!("{how}{}", last.unwrap_or_default());
        let help = "Look at what it says, at its options, and at its limits of time and memory.";
        self.trouble(question, Status::SolverFailed, &words, help)
    }

    pub(super) fn no_verdict(&self, question: &Question, words: &str) -> Trouble {
        let help = "Give it more time or other words (`{reply}` is the file for a reply that does not go to \
            standard output), or ask another solver.";
        self.trouble(question, Status::NoVerdict, words, help)
    }

    pub(super) fn unread(&self, question: &Question, unread: &Unread, text: &str) -> Trouble {
        let shown = unread.complaint.shown("its reply", text);
        match unread.fault {
            Fault::NoVerdict if text.trim().is_empty() => {
                self.no_verdict(question, "says nothing: its reply is empty.")
            }
            Fault::NoVerdict => {
                self.no_verdict(question, &format!("has a reply that is none:\n{shown}"))
            }
            Fault::TwoVerdicts => {
                self.contradiction(question, &format!("gives two verdicts:\n{shown}"))
            }
            Fault::NoModel => {
                let words = format!("says yes, and its model cannot be read:\n{shown}");
                let help = "Let it print its whole model; a yes without one is no answer.";
                self.trouble(question, Status::WrongYes, &words, help)
            }
        }
    }
}

pub fn no_file(question: &Question, file: &str, error: io::Error) -> Trouble {
    let help = "Make room for it, or name another folder in TMPDIR.";
    let words = format!("{}? {file}: {error}.\n{help}", question.words);
    Trouble::new(Status::SolverFailed, words)
}
