//! The jobs on a machine as bars, one after another, and where two of them meet.

use super::checked::numbers_of;
use crate::board::Setting;
use crate::jobs::Job;
use crate::sheet::{Rule, Sheet};

/// A job on a machine, numbered from 1 in the order of the begins.
pub struct Bar<'a> {
    pub number: usize,
    pub job: &'a Job,
    pub begin: i64,
}

/// Two bars on one machine at the same time, from a value up to another.
pub struct Clash<'a> {
    pub one: &'a Bar<'a>,
    pub other: &'a Bar<'a>,
    pub from: i64,
    pub to: i64,
}

impl Bar<'_> {
    /// When the machine is free again.
    pub fn end(&self) -> i64 {
        self.begin + self.job.takes
    }

    /// When the job's own work is over, such as the fire before the cooling.
    pub fn work_end(&self) -> i64 {
        self.begin + self.job.phases[0].steps
    }

    pub fn title(&self) -> &str {
        title(self.job)
    }
}

impl Clash<'_> {
    pub fn has(&self, bar: &Bar) -> bool {
        self.one.number == bar.number || self.other.number == bar.number
    }

    /// The broken rule that speaks of both jobs.
    pub fn forbidden_by<'a>(&self, broken: &[&'a Rule]) -> Option<&'a Rule> {
        let [one, other] = [self.one, self.other].map(|bar| bar.job.number);
        let is_of_both = |rule: &&&Rule| {
            let numbers = numbers_of(rule);
            numbers.contains(&one) && numbers.contains(&other)
        };
        broken.iter().find(is_of_both).copied()
    }
}

/// What a job is called: its text, or else its name.
pub fn title(job: &Job) -> &str {
    job.title.as_deref().unwrap_or(&job.name)
}

/// Whether a placement puts a job on a machine.
pub fn is_on(job: &Job, machine: usize, setting: &Setting) -> bool {
    let is_chosen = |choice: u16| setting.choices[usize::from(choice) - 1] == 1;
    job.on(machine).is_some_and(|on| on.choice.is_none_or(is_chosen))
}

pub fn bars_on<'a>(sheet: &'a Sheet, setting: &Setting, machine: usize) -> Vec<Bar<'a>> {
    let begin = |job: &Job| i64::from(setting.numbers[usize::from(job.number)]);
    let mut jobs: Vec<&Job> =
        sheet.jobs.iter().filter(|job| is_on(job, machine, setting)).collect();
    jobs.sort_by_key(|job| begin(job));
    let numbered = (1..).zip(jobs);
    numbered.map(|(number, job)| Bar { number, job, begin: begin(job) }).collect()
}

/// Every pair of bars that meet.
pub fn clashes_of<'a>(bars: &'a [Bar<'a>]) -> Vec<Clash<'a>> {
    let pairs = bars
        .iter()
        .enumerate()
        .flat_map(|(index, one)| bars[index + 1..].iter().map(move |other| (one, other)));
    let met = pairs.filter(|(one, other)| one.begin < other.end() && other.begin < one.end());
    let clash = |(one, other): (&'a Bar<'a>, &'a Bar<'a>)| {
        let (from, to) = (one.begin.max(other.begin), one.end().min(other.end()));
        Clash { one, other, from, to }
    };
    met.map(clash).collect()
}
