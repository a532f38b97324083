//! The way to the user's own solver and back: clauses to a file, the solver run on it, and what it says.
//!
//! The solver's standard output goes to a file, so that no pipe can fill up; its standard error is the user's.

mod call;
mod folder;
mod interrupt;
mod troubles;
mod waiting;

use crate::clauses::Clauses;
use crate::reply::{read_reply, Fault, Reply, Unread};
use crate::trouble::Trouble;
use call::Call;
use folder::Folder;
use std::fs::{self, File};
use std::io::{self, BufWriter, ErrorKind};
use std::os::unix::process::ExitStatusExt;
use std::process::{Command, ExitStatus, Stdio};
use std::time::Instant;

/// The statuses that solvers end with where they are in order: any verdict, yes, no.
const ANY: i32 = 0;
const YES: i32 = 10;
const NO: i32 = 20;

/// A solver's program, and the user's words for it.
pub struct Solver<'a> {
    pub program: &'a str,
    pub words: &'a [&'a str],
}

/// Whether the clauses, with the added literals as clauses of their own, have a model.
pub struct Question<'a> {
    /// The question in words, for messages.
    pub words: String,
    pub clauses: &'a Clauses,
    pub added: &'a [i32],
}

#[derive(Debug, PartialEq, Eq)]
pub enum Said {
    /// With a byte for each SAT variable. What it is worth has to be looked at.
    Yes(Vec<u8>),
    No,
}

impl Solver<'_> {
    /// Puts a question to the solver, or says why there is no reply to go on with.
    pub fn ask(&self, question: &Question) -> Result<Said, Trouble> {
        self.ask_until(question, None)
    }

    /// The same with an end to its time, where it has one.
    pub fn ask_until(&self, question: &Question, until: Option<Instant>) -> Result<Said, Trouble> {
        interrupt::listen();
        let no_file = |file: &str, error| troubles::no_file(question, file, error);
        let folder = Folder::new().map_err(|error| no_file("temporary folder", error))?;
        let [cnf, reply, output] = ["clauses.cnf", "reply", "output"].map(|name| folder.file(name));
        write_clauses(question, &cnf).map_err(|error| no_file(&cnf, error))?;
        let call = Call::new(self.program, self.words, &cnf, &reply);
        self.uninterrupted(question)?;
        let ended =
            self.run(&call, &output, until).map_err(|error| self.not_started(question, error))?;
        self.uninterrupted(question)?;
        let ended = ended.ok_or_else(|| self.too_late(question))?;
        let written = read_lossy(&output).map_err(|error| no_file(&output, error))?;
        let status = self.status(question, ended, &written)?;
        if call.has_reply_file {
            let reply = read_lossy(&reply).map_err(|error| no_file(&reply, error))?;
            self.said(question, status, &reply)
        } else {
            self.said(question, status, &written)
        }
    }

    fn uninterrupted(&self, question: &Question) -> Result<(), Trouble> {
        if interrupt::is_heard() {
            Err(self.interrupted(question))
        } else {
            Ok(())
        }
    }

    fn run(
        &self,
        call: &Call,
        output: &str,
        until: Option<Instant>,
    ) -> io::Result<Option<ExitStatus>> {
        let output = File::create(output)?;
        let mut command = Command::new(self.program);
        waiting::ended(command.args(&call.words).stdin(Stdio::null()).stdout(output), until)
    }

    /// The status that the solver ended with, if it is one of those that are in order.
    fn status(&self, question: &Question, ended: ExitStatus, output: &str) -> Result<i32, Trouble> {
        let how = match (ended.code(), ended.signal()) {
            (Some(status @ (ANY | YES | NO)), _) => return Ok(status),
            (Some(status), _) => format!("ended with the error status {status}."),
            (None, Some(signal)) => format!("was killed by signal {signal}."),
            (None, None) => "did not end by itself.".to_string(),
        };
        Err(self.failed(question, &how, output))
    }

    /// What a reply says, if it says something and the status does not say the opposite.
    fn said(&self, question: &Question, status: i32, text: &str) -> Result<Said, Trouble> {
        let reply = read_reply(text, question.clauses.sizes.variables);
        match (reply, status) {
            (Ok(Reply::Model(_)) | Err(Unread { fault: Fault::NoModel, .. }), NO) => {
                Err(self.contradiction(question, "says yes and ends with status 20, which is no."))
            }
            (Ok(Reply::NoSolution), YES) => {
                Err(self.contradiction(question, "says no and ends with status 10, which is yes."))
            }
            (Ok(Reply::Model(model)), _) => Ok(Said::Yes(model)),
            (Ok(Reply::NoSolution), _) => Ok(Said::No),
            (Ok(Reply::Unknown), _) => Err(self.no_verdict(question, "says that it gave up.")),
            (Err(unread), _) => Err(self.unread(question, &unread, text)),
        }
    }
}

fn write_clauses(question: &Question, cnf: &str) -> io::Result<()> {
    let mut out = BufWriter::new(File::create(cnf)?);
    question.clauses.write(&mut out, question.added)
}

/// The text of a file that a solver wrote; a file that it did not write is empty.
fn read_lossy(file: &str) -> io::Result<String> {
    match fs::read(file) {
        Ok(bytes) => Ok(String::from_utf8_lossy(&bytes).into_owned()),
        Err(error) if error.kind() == ErrorKind::NotFound => Ok(String::new()),
        Err(error) => Err(error),
    }
}
