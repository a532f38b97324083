//! Lines that cannot be kept together, in words.

use super::lines::{Kind, Lines};
use super::overfull::overfull_words;
use super::search::Found;
use crate::opened::Opened;
use crate::sheet::Rule;

/// Members' own rules and bookings come first, and what the program made of lines comes last.
const TOLD_IN_TURN: [Kind; 4] = [Kind::Written, Kind::Start, Kind::Machine, Kind::Made];

/// More rules than these are not read through.
const MOST_MADE: usize = 6;

/// So many lines are many.
const MANY: usize = 8;

const FOR_MANY: &str = "\
What would help where there are many: wider hours for some jobs, another machine, a job less, or fewer closed hours.";

pub fn found_words(opened: &Opened, found: &Found) -> String {
    let mut text = heading(found);
    for kind in TOLD_IN_TURN {
        let lines = found.lines.iter().filter(|line| found.spoken.kind(**line) == kind);
        text.extend(lines.map(|line| line_words(opened, found, *line)));
    }
    text += &made_words(opened, &found.spoken.there(&found.lines));
    text += &hints(opened, &found.lines);
    text
}

fn heading(found: &Found) -> String {
    match (found.lines.len(), found.unsure.len()) {
        (1, _) => "This line cannot be kept by itself:\n".to_string(),
        (count, 0) => format!(
            "These {count} lines cannot be kept together; without any one of them, the others can:\n"
        ),
        (count, _) => format!(
            "These {count} lines cannot be kept together. Maybe fewer of them cannot: those with `?` may not be needed.\n"
        ),
    }
}

fn line_words(opened: &Opened, found: &Found, line: usize) -> String {
    let mark = if found.unsure.contains(&line) && found.lines.len() > 1 { "?" } else { "" };
    format!("line {line}{mark}: {}\n", opened.line(line))
}

/// The rules that were made of the lines, where they are few.
fn made_words(opened: &Opened, there: &[bool]) -> String {
    let rules = opened.sheet.rules.iter().zip(there).filter(|(_, is_there)| **is_there);
    let made: Vec<&Rule> =
        rules.map(|(rule, _)| rule).filter(|rule| rule.made_for.is_some()).collect();
    if made.is_empty() || made.len() > MOST_MADE {
        return String::new();
    }
    let words = |rule: &&Rule| format!("    {}  # {}\n", rule.text, rule.comment);
    "What `board` makes of them:\n".to_string() + &made.iter().map(words).collect::<String>()
}

/// The hours that are wanted beside the hours that there are, and what would help where the lines are many.
fn hints(opened: &Opened, lines: &Lines) -> String {
    let mut hints = overfull_words(&opened.sheet, lines);
    if lines.len() >= MANY && !hints.is_empty() {
        hints.push(FOR_MANY.to_string());
    }
    hints.iter().map(|hint| format!("{hint}\n")).collect()
}
