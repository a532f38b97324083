//! Small scripts that stand in for a solver, and `board earliest` or `board place` run with them on a board of one number.

use crate::run::in_project;
use std::fs::{self, Permissions};
use std::os::unix::fs::PermissionsExt;
use std::path::PathBuf;
use std::process::Command;
use std::sync::atomic::{AtomicUsize, Ordering};
use std::{env, process};

/// The number x of this board may be anything from 0 to 7, so the first questions are at 7 and 3. SAT variable h + 3 says
/// that x is at most h.
const BOARD: &str = "number x : 0 .. 7\nchoice quiet\nx >= 0\n";

/// A folder with the board, a script and room for temporary files.
pub struct Fake {
    folder: PathBuf,
}

/// What a run prints, and how it ends.
pub struct Run {
    pub printed: String,
    pub complaint: String,
    pub status: Option<i32>,
}

impl Fake {
    /// `solver` in the folder is this script; `$1` is its first word. It is read by `sh`, and may be run by itself too.
    pub fn new(script: &str) -> Fake {
        static COUNT: AtomicUsize = AtomicUsize::new(0);
        let name =
            format!("board-test-{}-{}", process::id(), COUNT.fetch_add(1, Ordering::Relaxed));
        let fake = Fake { folder: env::temp_dir().join(name) };
        fs::create_dir_all(fake.path("temporary")).unwrap();
        fs::write(fake.path("x.board"), BOARD).unwrap();
        fs::write(fake.path("solver"), format!("#!/bin/sh\n{script}\n")).unwrap();
        fake.allow("solver", 0o755);
        fake
    }

    pub fn path(&self, name: &str) -> String {
        self.folder.join(name).to_str().unwrap().to_string()
    }

    pub fn allow(&self, name: &str, mode: u32) {
        fs::set_permissions(self.path(name), Permissions::from_mode(mode)).unwrap();
    }

    /// The command `board earliest x.board x --` with a solver and its words.
    pub fn command(&self, solver: &[&str]) -> Command {
        self.board(&["earliest", &self.path("x.board"), "x", "--"], solver)
    }

    /// The command `board place x.board --` with a solver and its words.
    pub fn placing(&self, solver: &[&str]) -> Command {
        self.board(&["place", &self.path("x.board"), "--"], solver)
    }

    /// The command `board why x.board` with words of its own, and then a solver and its words.
    pub fn asking_why(&self, words: &[&str], solver: &[&str]) -> Command {
        let board = self.path("x.board");
        self.board(&[&["why", &board], words, &["--"]].concat(), solver)
    }

    fn board(&self, words: &[&str], solver: &[&str]) -> Command {
        let mut command = in_project("board");
        command.args(words).args(solver).env("TMPDIR", self.path("temporary"));
        command
    }

    /// Runs `board` with the script and these words for it.
    pub fn run(&self, words: &[&str]) -> Run {
        self.ended(self.command(&[&["sh", &self.path("solver")], words].concat()))
    }

    /// Runs a command, which has to leave no temporary file behind, however it ends.
    pub fn ended(&self, mut command: Command) -> Run {
        let output = command.output().unwrap();
        assert_eq!(fs::read_dir(self.path("temporary")).unwrap().count(), 0, "files are left");
        Run {
            printed: String::from_utf8(output.stdout).unwrap(),
            complaint: String::from_utf8_lossy(&output.stderr).into_owned(),
            status: output.status.code(),
        }
    }
}

impl Drop for Fake {
    fn drop(&mut self) {
        fs::remove_dir_all(&self.folder).unwrap();
    }
}

/// The numbers of the model in which x has this value and the choice is no.
pub fn model(x: i32) -> String {
    let at_most = |hour: i32| if x <= hour { hour + 3 } else { -(hour + 3) };
    let numbers: Vec<String> = (-1..=7).map(|hour| at_most(hour).to_string()).collect();
    format!("-1 {} 0", numbers.join(" "))
}

/// A script that says yes with this value of x.
pub fn yes(x: i32) -> String {
    format!("echo s SATISFIABLE; echo v {}; exit 10", model(x))
}

/// A script that says no.
pub const NO: &str = "echo s UNSATISFIABLE; exit 20";
