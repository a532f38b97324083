//! A placement in words that `board show` reads: by machine and hour where there are jobs, and then all other values.

use crate::board::Setting;
use crate::jobs::Job;
use crate::sheet::Sheet;
use crate::wording::yes_or_no;

pub fn placement_words(sheet: &Sheet, setting: &Setting) -> String {
    let mut text = "# a solution, decoded and judged\n".to_string();
    for machine in 0..sheet.machines.len() {
        text += &machine_words(sheet, setting, machine);
    }
    let values = setting.numbers.len() + setting.choices.len();
    if !sheet.jobs.is_empty() && sheet.jobs.len() < values {
        text += "# besides\n";
    }
    for (number, value) in (0_u16..).zip(&setting.numbers) {
        if sheet.job_of(number).is_none() {
            text += &format!("{}\n", value_line(sheet, number, *value));
        }
    }
    for (choice, byte) in sheet.board.choices.iter().zip(&setting.choices) {
        text += &format!("{choice} = {}\n", yes_or_no(*byte));
    }
    text
}

/// The jobs of a machine, one after another, each with its end.
fn machine_words(sheet: &Sheet, setting: &Setting, machine: usize) -> String {
    let begin = |job: &Job| setting.numbers[usize::from(job.number)];
    let mut jobs: Vec<&Job> =
        sheet.jobs.iter().filter(|job| machine_of(job, setting) == Some(machine)).collect();
    jobs.sort_by_key(|job| begin(job));
    let lines: Vec<String> =
        jobs.iter().map(|job| value_line(sheet, job.number, begin(job))).collect();
    let width = lines.iter().map(|line| line.chars().count()).max().unwrap_or(0);
    let named = &sheet.machines[machine];
    let mut text = format!("# on {}{}\n", named.name, title_words(&named.title));
    for (job, line) in jobs.iter().zip(lines) {
        let end = sheet.value_words(job.number, i64::from(begin(job)) + job.takes);
        text += &format!("{line:width$}  # until {end}{}\n", title_words(&job.title));
    }
    text
}

/// The machine that a job is placed on.
fn machine_of(job: &Job, setting: &Setting) -> Option<usize> {
    let is_chosen = |choice: u16| setting.choices[usize::from(choice) - 1] == 1;
    job.machines.iter().find(|on| on.choice.is_none_or(is_chosen)).map(|on| on.machine)
}

fn value_line(sheet: &Sheet, number: u16, value: i32) -> String {
    let name = &sheet.board.numbers[usize::from(number)].name;
    format!("{name} = {}", sheet.value_words(number, value.into()))
}

fn title_words(title: &Option<String>) -> String {
    title.as_ref().map_or(String::new(), |title| format!(": {title}"))
}
