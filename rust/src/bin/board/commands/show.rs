//! `board show`: every rule with the values put in, and whether it holds.

use crate::blame;
use crate::board::Setting;
use crate::judging::clauses_hold;
use crate::opened::Opened;
use crate::output::put;
use crate::sheet::{Rule, Sheet};
use crate::shown::part_words;
use crate::trouble::Trouble;
use crate::values::read_setting;
use crate::wording::{bounds_words, yes_or_no};
use basmuthar::Refusal;

/// With this word anywhere behind `show`, only what is broken is written.
pub const BROKEN: &str = "--broken";

pub fn run(file: &str, values: &[&str], is_brief: bool) -> Result<bool, Trouble> {
    let opened = Opened::open(file)?;
    let sheet = &opened.sheet;
    let setting = read_setting(values, sheet)?;
    let verdict = basmuthar::judge(&opened.record, &setting.numbers, &setting.choices);
    let mut text = setting_words(sheet, &setting, is_brief);
    for rule in &sheet.rules {
        let words = rule_words(sheet, rule, &setting, is_brief);
        text += &words.map_err(|refusal| opened.refused(refusal, Some(rule.spot)))?;
    }
    text += &verdict_words(sheet, verdict);
    put(text.trim_start().as_bytes())?;
    Ok(verdict.is_ok())
}

/// Every value with its bounds; in brief, those that are outside.
fn setting_words(sheet: &Sheet, setting: &Setting, is_brief: bool) -> String {
    let mut text = String::new();
    for (number, value) in (0_u16..).zip(&setting.numbers) {
        let declared = &sheet.board.numbers[usize::from(number)];
        let is_within = i32::from(declared.lower) <= *value && *value <= declared.upper.into();
        if is_brief && is_within {
            continue;
        }
        let within = if is_within { "within" } else { "OUTSIDE" };
        let (value, bounds) =
            (sheet.value_words(number, (*value).into()), bounds_words(sheet, number));
        text += &format!("{} = {value}, {within} {bounds}\n", declared.name);
    }
    if !is_brief {
        for (choice, byte) in sheet.board.choices.iter().zip(&setting.choices) {
            text += &format!("{choice} = {}\n", yes_or_no(*byte));
        }
    }
    text
}

/// A rule with the alternatives that make it hold, or with all of them where none does.
fn rule_words(
    sheet: &Sheet,
    rule: &Rule,
    setting: &Setting,
    is_brief: bool,
) -> Result<String, Refusal> {
    let rule_holds = clauses_hold(sheet, &sheet.board.clauses[rule.clauses.clone()], setting)?;
    if is_brief && rule_holds {
        return Ok(String::new());
    }
    let made_for = rule.made_for.as_ref().map_or(String::new(), |words| format!(" ({words})"));
    let holds = if rule_holds { "holds" } else { "does not hold" };
    let comment = match &rule.comment[..] {
        "" => String::new(),
        comment => format!("  # {comment}"),
    };
    let mut text = format!("\nline {}{made_for} {holds}: {}{comment}\n", rule.spot.line, rule.text);
    for part in &rule.parts {
        let part_holds = clauses_hold(sheet, &part.rows, setting)?;
        if part_holds || !rule_holds {
            text += &format!("    {}\n", part_words(sheet, part, setting, part_holds));
        }
    }
    if rule.parts.is_empty() {
        text += "    nothing can make this hold\n";
    }
    Ok(text)
}

/// The library's own verdict on the whole.
fn verdict_words(sheet: &Sheet, verdict: Result<(), Refusal>) -> String {
    match verdict {
        Ok(()) => "\nThis is a solution.\n".to_string(),
        Err(refusal) => match blame::of_setting(sheet, refusal) {
            Some(spot) => format!("\nThis is no solution: {refusal} (line {}).\n", spot.line),
            None => format!("\nThis is no solution: {refusal}.\n"),
        },
    }
}
