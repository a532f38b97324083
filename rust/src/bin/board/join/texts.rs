//! A board's text as lines, each with what it says.

use crate::complaint::Complaint;
use crate::opened::Opened;
use crate::sheet::Sheet;
use crate::words::{Word, Words};
use std::collections::{BTreeMap, BTreeSet};

pub type Names = BTreeSet<String>;

pub struct Text {
    /// The name of its file.
    pub name: String,
    pub lines: Vec<Line>,
}

pub struct Line {
    /// As it is written.
    pub text: String,
    /// Its words without comment and blanks: two lines with the same words say the same.
    pub words: Vec<String>,
    pub kind: Kind,
}

/// What a line is, and by what it is known again where it was changed.
#[derive(Debug, Clone, PartialEq, Eq)]
pub enum Kind {
    /// A comment, or a blank line.
    Note,
    /// A number, choices, a machine, a job or a closing: all names that the line declares.
    Names(Names),
    Week,
    /// Closed hours of these machines; of all where none is named.
    Closed(Names),
    /// A rule about these names.
    Rule(Names),
}

impl Text {
    /// Opens a file, which has to be a board.
    pub fn open(name: &str) -> Result<Text, String> {
        let opened = Opened::open(name)?;
        Text::of(name, opened.text(), &opened.sheet)
    }

    /// A text that is read.
    pub fn of(name: &str, text: &str, sheet: &Sheet) -> Result<Text, String> {
        let lines = lines_of(sheet, text).map_err(|complaint| complaint.shown(name, text))?;
        Ok(Text { name: name.to_string(), lines })
    }

    /// The line of the week.
    pub fn week(&self) -> Option<usize> {
        self.lines.iter().position(|line| line.kind == Kind::Week)
    }

    pub fn week_words(&self) -> Option<&Vec<String>> {
        self.week().map(|line| &self.lines[line].words)
    }

    /// `week.board, line 7`.
    pub fn place(&self, line: usize) -> String {
        format!("{}, line {}", self.name, line + 1)
    }
}

impl Kind {
    /// Whether a line of this kind may be a changed form of one of the other.
    pub fn is_form_of(&self, other: &Kind) -> bool {
        match (self, other) {
            (Kind::Names(one), Kind::Names(other)) => !one.is_disjoint(other),
            (Kind::Note, _) => false,
            _ => self == other,
        }
    }
}

fn lines_of(sheet: &Sheet, text: &str) -> Result<Vec<Line>, Complaint> {
    let declared = declared_names(sheet);
    let rules: BTreeSet<usize> = sheet.rules.iter().map(|rule| rule.spot.line).collect();
    let closed: BTreeSet<usize> = sheet.closed.iter().map(|closed| closed.spot.line).collect();
    let mut lines = Vec::new();
    for (index, line) in text.lines().enumerate() {
        let words = words_of(line, index + 1)?;
        let used = words.iter().filter(|word| sheet.names.contains_key(*word)).cloned();
        let kind = match declared.get(&(index + 1)) {
            _ if words.is_empty() => Kind::Note,
            Some(names) => Kind::Names(names.clone()),
            None if closed.contains(&(index + 1)) => Kind::Closed(used.collect()),
            None if rules.contains(&(index + 1)) => Kind::Rule(used.collect()),
            None => Kind::Week,
        };
        lines.push(Line { text: line.trim_end().to_string(), words, kind });
    }
    Ok(lines)
}

/// For each line the names that it declares.
fn declared_names(sheet: &Sheet) -> BTreeMap<usize, Names> {
    let mut names: BTreeMap<usize, Names> = BTreeMap::new();
    for (name, named) in &sheet.names {
        names.entry(sheet.line_of(*named)).or_default().insert(name.clone());
    }
    names
}

/// The words of a line, written as in every other line that says the same.
fn words_of(line: &str, number: usize) -> Result<Vec<String>, Complaint> {
    let mut words = Words::of(line, number);
    let mut said = Vec::new();
    while words.peek()? != Word::End {
        said.push(match words.take()? {
            Word::Name(name) => name.to_string(),
            Word::Number(number) => number.to_string(),
            Word::Symbol(symbol) => symbol.to_string(),
            Word::Text(text) => format!("\"{text}\""),
            Word::End => String::new(),
        });
    }
    Ok(said)
}
