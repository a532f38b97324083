//! All that a page tells of: a board, a placement, Judge's answer, the page's own sums, and the bars of every machine.

use super::bars::{bars_on, clashes_of, is_on, Bar, Clash};
use super::calendar::Calendar;
use super::checked::{checked, numbers_of, Checked};
use super::html::{escaped, kept_apart};
use crate::board::Setting;
use crate::jobs::Job;
use crate::literals::Said;
use crate::opened::Opened;
use crate::sheet::{Rule, Sheet};
use basmuthar::Refusal;

pub struct Look<'a> {
    pub opened: &'a Opened,
    pub sheet: &'a Sheet,
    pub setting: &'a Setting,
    pub judged: Result<(), Refusal>,
    pub checked: Checked<'a>,
    pub calendar: Calendar,
    /// The bars of each machine.
    pub bars: Vec<Vec<Bar<'a>>>,
}

/// What is to be said of a placement before all else.
#[derive(Debug, Clone, Copy, PartialEq, Eq)]
pub enum Verdict {
    Sound,
    /// Every rule holds, and so many pairs of jobs meet that no rule forbids.
    Unforbidden(usize),
    Broken,
    /// Judge and the page's own sums say different things.
    Disagreement,
}

impl<'a> Look<'a> {
    pub fn new(opened: &'a Opened, setting: &'a Setting, judged: Result<(), Refusal>) -> Look<'a> {
        let sheet = &opened.sheet;
        let machines = 0..sheet.machines.len();
        Look {
            opened,
            sheet,
            setting,
            judged,
            checked: checked(sheet, setting),
            calendar: Calendar { week: sheet.week },
            bars: machines.map(|machine| bars_on(sheet, setting, machine)).collect(),
        }
    }

    pub fn verdict(&self) -> Verdict {
        let clashes: usize = self.bars.iter().map(|bars| clashes_of(bars).len()).sum();
        match (self.checked.agrees_with(self.judged), self.checked.is_sound(), clashes) {
            (false, _, _) => Verdict::Disagreement,
            (true, false, _) => Verdict::Broken,
            (true, true, 0) => Verdict::Sound,
            (true, true, clashes) => Verdict::Unforbidden(clashes),
        }
    }

    /// A machine's text, or else its name.
    pub fn machine_title(&self, machine: usize) -> &str {
        let machine = &self.sheet.machines[machine];
        machine.title.as_deref().unwrap_or(&machine.name)
    }

    /// `Tue 08:00`, or the value where there is no week.
    pub fn time(&self, value: i64) -> String {
        self.sheet.time_words(value)
    }

    /// `13 h`, or so many steps.
    pub fn duration(&self, steps: i64) -> String {
        match (self.sheet.week, steps) {
            (Some(week), steps) => week.duration_words(steps),
            (None, 1) => "1 step".to_string(),
            (None, steps) => format!("{steps} steps"),
        }
    }

    /// The jobs that no machine's bars show.
    pub fn jobs_nowhere(&self) -> Vec<&'a Job> {
        let is_shown =
            |job: &Job| job.machines.iter().any(|on| is_on(job, on.machine, self.setting));
        self.sheet.jobs.iter().filter(|job| !is_shown(job)).collect()
    }

    /// `Plates, biscuit (plates): Tue 14:30 to Tue 20:30 on Large kiln`, ready for the page.
    pub fn job_words(&self, job: &Job) -> String {
        let begin = i64::from(self.setting.numbers[usize::from(job.number)]);
        let [from, to] = [begin, begin + job.takes].map(|value| self.time(value));
        let on = job.machines.iter().filter(|on| is_on(job, on.machine, self.setting));
        let machines: Vec<String> =
            on.map(|on| kept_apart(self.machine_title(on.machine))).collect();
        let machines = match machines[..] {
            [] => "no machine".to_string(),
            _ => machines.join(" and "),
        };
        let name = escaped(&job.name);
        let named = match &job.title {
            Some(title) => format!("{} ({name})", kept_apart(title)),
            None => name,
        };
        format!("{named}: {from} to {to} on {machines}")
    }

    /// Everything that is wrong with a bar, ready for the page.
    pub fn faults_of(&self, bar: &Bar, clashes: &[Clash]) -> Vec<String> {
        let own: Vec<&Clash> = clashes.iter().filter(|clash| clash.has(bar)).collect();
        let broken = &self.checked.broken;
        let told: Vec<&Rule> = own.iter().filter_map(|clash| clash.forbidden_by(broken)).collect();
        let met = own.iter().map(|clash| {
            let other = if clash.one.number == bar.number { clash.other } else { clash.one };
            format!("clash with no. {}", other.number)
        });
        let is_outside = self.checked.outside.contains(&bar.job.number);
        let outside = is_outside.then(|| "outside its hours".to_string());
        let rules = broken.iter().filter(|rule| {
            speaks_of(rule, bar.job) && !told.iter().any(|other| std::ptr::eq(*other, **rule))
        });
        let rules = rules.map(|rule| format!("line {} is broken{}", rule.spot.line, why(rule)));
        met.chain(outside).chain(rules).collect()
    }
}

/// What a rule is for, where its line says so, ready for the page.
pub fn why(rule: &Rule) -> String {
    match &rule.comment[..] {
        "" => String::new(),
        comment => format!(": {}", kept_apart(comment)),
    }
}

/// Whether a rule compares a job's hour, or asks on which machine it is.
pub fn speaks_of(rule: &Rule, job: &Job) -> bool {
    let is_machine = |choice: u16| job.machines.iter().any(|on| on.choice == Some(choice));
    let asks = |said: &Said| matches!(said, Said::Choice { number, .. } if is_machine(*number));
    numbers_of(rule).contains(&job.number) || rule.parts.iter().any(|part| asks(&part.said))
}
