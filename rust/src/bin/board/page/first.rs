//! The first page: the verdict in words, Judge's answer, the page's own sums, what to look at, and two lines to sign.

use super::bars::{clashes_of, Bar};
use super::besides::besides;
use super::broken::faults;
use super::hashes::Hashes;
use super::html::{escaped, kept_apart};
use super::look::{Look, Verdict};
use super::tightest::tightest;
use crate::blame;

/// So many lines of the comment that a board begins with are shown.
const MOST_LINES: usize = 4;

pub fn first_page(look: &Look, hashes: &Hashes) -> String {
    let comment: Vec<&str> = look.opened.first_comment().take(MOST_LINES).collect();
    let parts = [
        format!("<h1>Placed board: {}</h1>\n", kept_apart(look.opened.short_name())),
        format!("<p>{}</p>\n", kept_apart(&comment.join(" "))),
        verdict_words(look),
        judged_words(look),
        faults(look),
        machines_words(look),
        besides(look),
        tightest(look),
        signatures(look),
        hashes.words(),
    ];
    format!("<section class=\"first\">\n{}</section>\n", parts.concat())
}

fn verdict_words(look: &Look) -> String {
    let (class, head, words) = match look.verdict() {
        Verdict::Sound => {
            ("sound", "✔ This placement keeps every rule of the board", sound_words(look))
        }
        Verdict::Unforbidden(count) => {
            let pairs = if count == 1 {
                "two jobs are".to_string()
            } else {
                format!("{count} pairs of jobs are")
            };
            let words = format!(
                "Every rule of this board holds, and yet {pairs} on one machine at the same time. No rule of this board \
                 forbids this: a rule may be missing."
            );
            ("unsound", "✗ Look twice before you sign", words)
        }
        Verdict::Broken => ("unsound", "✗ Do not work by this placement", broken_words(look)),
        Verdict::Disagreement => {
            let words = "Judge and this sheet's own sums do not say the same, so one of them is wrong. Keep this sheet and the \
                board's text, and tell those who look after the program.";
            ("unsound", "✗ Do not use this sheet", words.to_string())
        }
    };
    format!("<div class=\"verdict {class}\"><h2>{head}</h2>\n<p>{words}</p></div>\n")
}

fn sound_words(look: &Look) -> String {
    let rules = counted(look.sheet.rules.len(), "rule");
    let numbers = counted(look.setting.numbers.len(), "number");
    let jobs = match look.sheet.jobs.len() {
        0 => String::new(),
        _ => " No two jobs are on one machine at the same time.".to_string(),
    };
    format!("{rules} and {numbers} were put to the test.{jobs}")
}

fn broken_words(look: &Look) -> String {
    let rules = match look.checked.broken.len() {
        0 => String::new(),
        1 => format!(" 1 of {} is broken.", counted(look.sheet.rules.len(), "rule")),
        broken => format!(" {broken} of {} are broken.", counted(look.sheet.rules.len(), "rule")),
    };
    let outside = match look.checked.outside.len() {
        0 => String::new(),
        1 => " 1 number is outside its bounds.".to_string(),
        outside => format!(" {outside} numbers are outside their bounds."),
    };
    format!("It is no solution of the board.{rules}{outside} What is wrong stands below, and is marked with ✗ in the pictures.")
}

/// `1 rule`, `12 rules`.
fn counted(count: usize, thing: &str) -> String {
    let ending = if count == 1 { "" } else { "s" };
    format!("{count} {thing}{ending}")
}

fn judged_words(look: &Look) -> String {
    let judge = match look.judged {
        Ok(()) => "accepts this placement".to_string(),
        Err(refusal) => match blame::of_setting(look.sheet, refusal) {
            Some(spot) => format!("refuses this placement: {refusal} (line {})", spot.line),
            None => format!("refuses this placement: {refusal}"),
        },
    };
    let sums = match (look.checked.broken.len(), look.checked.outside.len()) {
        (0, 0) => "every rule holds, and every number is within its bounds".to_string(),
        (rules, 0) => format!("{} broken", counted(rules, "rule")),
        (rules, numbers) => {
            format!("{} broken, {} outside", counted(rules, "rule"), counted(numbers, "number"))
        }
    };
    let agree = if look.checked.agrees_with(look.judged) {
        "Both say the same."
    } else {
        "<b>✗ They do not agree. Do not use this sheet.</b>"
    };
    format!(
        "<p><b>Judge</b>, of the proved library, {judge}. <b>This sheet's own sums</b>, worked out without it: {sums}. \
         {agree}</p>\n"
    )
}

/// What stands on the pages that follow.
fn machines_words(look: &Look) -> String {
    if look.bars.is_empty() {
        return String::new();
    }
    let row = |(machine, bars): (usize, &Vec<Bar>)| {
        let clashes = clashes_of(bars).len();
        let clashes =
            if clashes == 0 { "none".to_string() } else { format!("<b>✗ {clashes}</b>") };
        let first = bars.first().map_or("–".to_string(), |bar| look.time(bar.begin));
        let last = bars.iter().map(|bar| bar.end()).max();
        let last = last.map_or("–".to_string(), |end| look.time(end));
        let title = kept_apart(look.machine_title(machine));
        let jobs = bars.len();
        format!("<tr><td>{title}</td><td>{jobs}</td><td>{first}</td><td>{last}</td><td>{clashes}</td></tr>\n")
    };
    let rows: String = look.bars.iter().enumerate().map(row).collect();
    format!(
        "<h2>The machines</h2>\n<table class=\"machines\"><thead><tr><th>Machine</th><th>Jobs</th><th>From</th>\
         <th>Until</th><th>Clashes</th></tr></thead>\n<tbody>\n{rows}</tbody></table>\n"
    )
}

fn signatures(look: &Look) -> String {
    let head = match look.verdict() {
        Verdict::Sound => "Looked through, every box ticked",
        _ => "Not to be signed as good. Seen by",
    };
    let line = "<p class=\"sign\"><span>Name</span><i></i><span>Signature</span><i></i>\
        <span>Day</span><i class=\"short\"></i></p>\n";
    format!("<div class=\"signatures\"><h2>{}</h2>\n{line}{line}</div>\n", escaped(head))
}
