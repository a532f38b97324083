//! `board rules`: the board in plain numbers, choices and rules, each with the line that it comes from.

use crate::complaint::Spot;
use crate::literals::Part;
use crate::opened::Opened;
use crate::output::put;
use crate::sheet::{Rule, Sheet};
use crate::trouble::Trouble;
use crate::wording::bounds_words;

pub fn run(file: &str) -> Result<bool, Trouble> {
    put(plain_words(&Opened::open(file)?.sheet).as_bytes())
}

/// A text that reads back as the same board.
pub fn plain_words(sheet: &Sheet) -> String {
    let mut lines: Vec<(String, String)> = Vec::new();
    if let Some(week) = sheet.week {
        lines.push((week.line(), String::new()));
    }
    for (number, spots) in (0_u16..).zip(&sheet.spots.numbers) {
        let declared = &sheet.board.numbers[usize::from(number)];
        let text = format!("number {} : {}", declared.name, bounds_words(sheet, number));
        lines.push((text, line_words(spots.name, "")));
    }
    for (choice, spot) in sheet.board.choices.iter().zip(&sheet.spots.choices) {
        lines.push((format!("choice {choice}"), line_words(*spot, "")));
    }
    for rule in &sheet.rules {
        lines.push((rule_words(sheet, rule), line_words(rule.spot, &rule.comment)));
    }
    let beside = |(text, line): &(String, String)| format!("{text}{line}\n");
    lines.iter().map(beside).collect()
}

fn rule_words(sheet: &Sheet, rule: &Rule) -> String {
    let parts: Vec<String> = rule.parts.iter().map(|part: &Part| part.words(sheet)).collect();
    if parts.is_empty() {
        "never".to_string()
    } else {
        parts.join(" or ")
    }
}

fn line_words(spot: Spot, comment: &str) -> String {
    let colon = if comment.is_empty() { "" } else { ": " };
    format!("  # line {}{colon}{comment}", spot.line)
}
