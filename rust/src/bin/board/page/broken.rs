//! What is wrong with a placement, in words: numbers outside their bounds, broken rules, and jobs that meet.

use super::bars::{clashes_of, Bar, Clash};
use super::checked::part_holds;
use super::html::{escaped, kept_apart};
use super::look::{speaks_of, why, Look};
use crate::literals::Part;
use crate::sheet::Rule;
use crate::shown::part_words;
use crate::wording::bounds_words;

/// So many faults are printed; a screen has room for all.
const MOST_PRINTED: usize = 12;

/// Everything that is wrong; nothing where all is well.
pub fn faults(look: &Look) -> String {
    let outside = look.checked.outside.iter().map(|number| outside_words(look, *number));
    let clashes = (0..look.bars.len()).flat_map(|machine| clashes_words(look, machine));
    let nowhere = look.jobs_nowhere().into_iter().map(|job| {
        let words = look.job_words(job);
        fault("A job is on no machine", &format!("<p>{words}</p>\n"))
    });
    let rules = other_rules(look).into_iter().map(|rule| rule_words(look, rule));
    let mut faults: Vec<String> = clashes.chain(nowhere).chain(outside).chain(rules).collect();
    if faults.len() <= MOST_PRINTED {
        return faults.concat();
    }
    let others = faults.split_off(MOST_PRINTED);
    format!(
        "{}<p class=\"on-paper\"><b>✗ {} more are wrong: the page on a screen has them all.</b></p>\n\
         <div class=\"on-screen\">\n{}</div>\n",
        faults.concat(),
        others.len(),
        others.concat()
    )
}

fn fault(head: &str, body: &str) -> String {
    format!("<div class=\"wrong\">\n<h3>✗ {head}</h3>\n{body}</div>\n")
}

fn outside_words(look: &Look, number: u16) -> String {
    let index = usize::from(number);
    let value = look.sheet.value_words(number, look.setting.numbers[index].into());
    let name = escaped(&look.sheet.board.numbers[index].name);
    let line = look.sheet.spots.numbers[index].name.line;
    let bounds = bounds_words(look.sheet, number);
    let job = look
        .sheet
        .job_of(number)
        .map_or(String::new(), |job| format!("<p>{}</p>\n", look.job_words(job)));
    let body = format!(
        "{job}<p>{name} = {value}; it may be from {bounds}, by line {line}:</p>\n{}",
        line_of(look, line)
    );
    fault(&format!("{name} is outside its hours or bounds"), &body.replace(" .. ", " to "))
}

/// The line of the board as it is written, but for blanks in a row.
fn line_of(look: &Look, line: usize) -> String {
    format!("<p><code>{}</code></p>\n", escaped(look.opened.line(line)))
}

fn clashes_words(look: &Look, machine: usize) -> Vec<String> {
    let bars = &look.bars[machine];
    let clashes = clashes_of(bars);
    clashes.iter().map(|clash| clash_words(look, machine, clash)).collect()
}

/// Two jobs that meet, with the rule that forbids it, or that there is none.
fn clash_words(look: &Look, machine: usize, clash: &Clash) -> String {
    let [from, to] = [clash.from, clash.to].map(|value| look.time(value));
    let head = format!("Clash on {}, {from} to {to}", kept_apart(look.machine_title(machine)));
    let forbidden = match clash.forbidden_by(&look.checked.broken) {
        Some(rule) => format!(
            "<p>Line {} forbids this{}.</p>\n{}",
            rule.spot.line,
            why(rule),
            sums_words(look, rule)
        ),
        None => "<p><b>No rule of this board forbids this.</b></p>\n".to_string(),
    };
    let jobs = [clash.one, clash.other]
        .map(|bar| format!("<li>no. {}: {}</li>\n", bar.number, look.job_words(bar.job)));
    fault(&head, &format!("<ul>\n{}</ul>\n{forbidden}", jobs.concat()))
}

/// The broken rules that no clash has told of.
fn other_rules<'a>(look: &Look<'a>) -> Vec<&'a Rule> {
    let broken = &look.checked.broken;
    let forbidding = |bars: &Vec<Bar<'a>>| {
        let clashes = clashes_of(bars);
        clashes.iter().filter_map(|clash| clash.forbidden_by(broken)).collect::<Vec<_>>()
    };
    let told: Vec<&Rule> = look.bars.iter().flat_map(forbidding).collect();
    let is_told = |rule: &&&Rule| told.iter().any(|other| std::ptr::eq(*other, **rule));
    broken.iter().filter(|rule| !is_told(rule)).copied().collect()
}

/// A broken rule: what it is for, the jobs that it speaks of, the line, and every sum.
fn rule_words(look: &Look, rule: &Rule) -> String {
    let jobs = look.sheet.jobs.iter().filter(|job| speaks_of(rule, job));
    let jobs: Vec<String> = jobs.map(|job| format!("<li>{}</li>\n", look.job_words(job))).collect();
    let jobs = match jobs[..] {
        [] => String::new(),
        _ => format!("<ul>\n{}</ul>\n", jobs.concat()),
    };
    let head = format!("Line {} is broken{}", rule.spot.line, why(rule));
    fault(&head, &(jobs + &sums_words(look, rule)))
}

/// A broken rule as it is written, what it means where it is a short way to say so, and its sums.
fn sums_words(look: &Look, rule: &Rule) -> String {
    let written = line_of(look, rule.spot.line);
    let plain = match &rule.made_for {
        Some(_) => format!("<p>which means <code>{}</code></p>\n", escaped(&rule.text)),
        None => String::new(),
    };
    let sum = |part: &Part| {
        let holds = part_holds(part, look.setting);
        format!("<li>{}</li>\n", escaped(&part_words(look.sheet, part, look.setting, holds)))
    };
    let sums = match rule.parts[..] {
        [] => "<li>nothing can make this hold</li>\n".to_string(),
        _ => rule.parts.iter().map(sum).collect(),
    };
    format!("{written}{plain}<ul class=\"sums\">\n{sums}</ul>\n")
}
