//! The page of a machine: its days in a picture, and its jobs in a table.

use super::bars::clashes_of;
use super::html::{escaped, kept_apart};
use super::look::Look;
use super::phases::{key, Kinds};
use super::picture::Picture;
use super::table::table;
use crate::jobs::Phase;

pub fn machine_page(look: &Look, machine: usize, which: &str) -> String {
    let bars = &look.bars[machine];
    let clashes = clashes_of(bars);
    let head = format!(
        "<section class=\"machine\">\n{which}<h2>{} <span class=\"name\">{}</span></h2>\n<p class=\"state\">{}</p>\n",
        kept_apart(look.machine_title(machine)),
        escaped(&look.sheet.machines[machine].name),
        state_words(look, machine, clashes.len())
    );
    if bars.is_empty() {
        return format!("{head}</section>\n");
    }
    let kinds = Kinds::of(look.sheet);
    let picture = Picture::new(look, machine, &clashes, &kinds);
    let phases: Vec<&Phase> = bars.iter().flat_map(|bar| &bar.job.phases).collect();
    let mut legend = kinds.legend(&phases);
    let closed = closed_words(look, machine);
    if !closed.is_empty() {
        legend += &key("closed", "closed");
    }
    if !clashes.is_empty() {
        legend += &key("clash", "clash: two at once");
    }
    let hours = hours_words(look, &picture);
    let (rows, table) = (picture.rows(), table(look, machine, &clashes));
    format!("{head}<p class=\"legend\">{legend}</p>\n{rows}<p class=\"small\">{hours}{closed}</p>\n{table}</section>\n")
}

fn state_words(look: &Look, machine: usize, clashes: usize) -> String {
    let jobs = match look.bars[machine].len() {
        0 => return "Nothing is placed on this machine.".to_string(),
        1 => return "1 job.".to_string(),
        jobs => format!("{jobs} jobs"),
    };
    match clashes {
        0 => format!("{jobs}. No two of them are here at the same time."),
        1 => format!("{jobs}. <b>✗ Two of them are here at the same time.</b>"),
        clashes => format!("{jobs}. <b>✗ {clashes} pairs of them are here at the same time.</b>"),
    }
}

fn hours_words(look: &Look, picture: &Picture) -> String {
    let (calendar, span) = (look.calendar, picture.span);
    match calendar.week {
        None => "A row has 24 steps. ".to_string(),
        Some(_) if span.is_whole_day() => String::new(),
        Some(_) => {
            let (from, to) = (calendar.clock(span.from, false), calendar.clock(span.to, true));
            format!("The rows are from {from} to {to}; nothing is placed here before or after. ")
        }
    }
}

/// The lines of the board that close this machine, as they are written.
fn closed_words(look: &Look, machine: usize) -> String {
    let closed = look.sheet.closed.iter().filter(|closed| closed.is_of(machine));
    let lines = closed.map(|closed| {
        let line = closed.spot.line;
        format!("<br>\nline {line}: <code>{}</code>", escaped(look.opened.line(line)))
    });
    match lines.collect::<String>() {
        lines if lines.is_empty() => lines,
        lines => format!("Nobody begins or unloads a job in closed hours:{lines}"),
    }
}
