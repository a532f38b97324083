//! How far a long search is: one line on a terminal, and nothing where standard error goes elsewhere.

use std::io::{self, IsTerminal, Write};

/// Goes to the beginning of the line and makes it blank, as every terminal understands.
const BLANK_LINE: &str = "\r\x1b[K";

pub struct Progress {
    is_shown: bool,
}

impl Progress {
    pub fn new() -> Progress {
        Progress { is_shown: io::stderr().is_terminal() }
    }

    /// Shows these words in the place of those before.
    pub fn show(&self, words: &str) {
        self.write(&format!("{BLANK_LINE}{words}"));
    }

    fn write(&self, words: &str) {
        if self.is_shown {
            // Where it cannot be written, nothing that was asked for is missing.
            let mut errors = io::stderr();
            let _ = errors.write_all(words.as_bytes()).and_then(|()| errors.flush());
        }
    }
}

impl Drop for Progress {
    /// Leaves the line to what is said in the end.
    fn drop(&mut self) {
        self.write(BLANK_LINE);
    }
}
