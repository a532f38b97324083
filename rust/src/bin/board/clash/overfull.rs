//! Where many jobs are at odds: the hours that they want on their machines, beside the hours that there are.

use super::lines::Lines;
use crate::closed::Closed;
use crate::jobs::Job;
use crate::sheet::Sheet;
use std::collections::BTreeSet;

/// Fewer jobs than these are seen at a glance.
const FEWEST_JOBS: usize = 3;

/// Machines with the jobs that can be on no others.
struct Pool<'a> {
    machines: BTreeSet<usize>,
    jobs: Vec<&'a Job>,
}

/// Hours from a first value until a last one, and what jobs want of them.
struct Span {
    first: i64,
    last: i64,
    jobs: usize,
    wanted: i64,
}

/// A line for each pool of machines among these lines that several jobs want.
pub fn overfull_words(sheet: &Sheet, lines: &Lines) -> Vec<String> {
    let pools = pools(sheet, lines);
    let large = pools.iter().filter(|pool| pool.jobs.len() >= FEWEST_JOBS);
    large.filter_map(|pool| pool.words(sheet, lines)).collect()
}

/// Machines between which jobs may choose are in one pool.
fn pools<'a>(sheet: &'a Sheet, lines: &Lines) -> Vec<Pool<'a>> {
    let is_kept = |machine: &usize| lines.contains(&sheet.machines[*machine].spot.line);
    let mut pools: Vec<Pool> = Vec::new();
    for job in sheet.jobs.iter().filter(|job| lines.contains(&job.spot.line)) {
        let machines: BTreeSet<usize> = job.machines.iter().map(|on| on.machine).collect();
        if machines.iter().all(is_kept) {
            pools = with_job(pools, job, machines);
        }
    }
    pools
}

fn with_job<'a>(
    pools: Vec<Pool<'a>>,
    job: &'a Job,
    mut machines: BTreeSet<usize>,
) -> Vec<Pool<'a>> {
    let (apart, met): (Vec<Pool>, Vec<Pool>) =
        pools.into_iter().partition(|pool| pool.machines.is_disjoint(&machines));
    machines.extend(met.iter().flat_map(|pool| &pool.machines));
    let jobs = met.into_iter().flat_map(|pool| pool.jobs).chain([job]).collect();
    apart.into_iter().chain([Pool { machines, jobs }]).collect()
}

impl Pool<'_> {
    fn words(&self, sheet: &Sheet, lines: &Lines) -> Option<String> {
        let (span, is_overfull) = self.span()?;
        let overfull = match (is_overfull, self.machines.len()) {
            (false, _) => "",
            (true, 1) => " is overfull",
            (true, _) => " are overfull",
        };
        let (names, jobs) = (self.names(sheet), span.jobs);
        let [wanted, room] =
            [span.wanted, self.room(&span)].map(|steps| sheet.duration_words(steps));
        let [first, last] = [span.first, span.last].map(|value| sheet.time_words(value));
        let open = self.open_words(sheet, lines, &span);
        Some(format!(
            "{names}{overfull}: {jobs} jobs take {wanted}; from {first} until {last} there are {room}{open}."
        ))
    }

    /// `kiln_a and kiln_b together`.
    fn names(&self, sheet: &Sheet) -> String {
        let names: Vec<&str> =
            self.machines.iter().map(|machine| sheet.machines[*machine].name.as_str()).collect();
        let together = if names.len() > 1 { " together" } else { "" };
        format!("{}{together}", names.join(" and "))
    }

    /// The hours that have the least room for the jobs in them, where that is too little; otherwise those of all jobs.
    fn span(&self) -> Option<(Span, bool)> {
        let firsts = self.jobs.iter().map(|job| job.begins.0);
        let spans = firsts
            .flat_map(|first| self.jobs.iter().map(move |job| self.span_of(first, job.ends().1)));
        let fullest = spans
            .filter(|span| span.first < span.last)
            .max_by_key(|span| span.wanted - self.room(span))?;
        if fullest.wanted > self.room(&fullest) {
            return Some((fullest, true));
        }
        let first = self.jobs.iter().map(|job| job.begins.0).min()?;
        let last = self.jobs.iter().map(|job| job.ends().1).max()?;
        Some((self.span_of(first, last), false))
    }

    /// The jobs that have to be within these hours as a whole.
    fn span_of(&self, first: i64, last: i64) -> Span {
        let is_within = |job: &&&Job| first <= job.begins.0 && job.ends().1 <= last;
        let within: Vec<&&Job> = self.jobs.iter().filter(is_within).collect();
        let wanted = within.iter().map(|job| job.takes).sum();
        Span { first, last, jobs: within.len(), wanted }
    }

    fn room(&self, span: &Span) -> i64 {
        (span.last - span.first) * self.machines.len() as i64
    }

    /// `, 40 h of them open`, where closed hours are among the lines.
    fn open_words(&self, sheet: &Sheet, lines: &Lines, span: &Span) -> String {
        let closed: Vec<&Closed> =
            sheet.closed.iter().filter(|closed| lines.contains(&closed.spot.line)).collect();
        if closed.is_empty() {
            return String::new();
        }
        let open = self.machines.iter().map(|machine| span.open_steps(&closed, *machine)).sum();
        format!(", {} of them open", sheet.duration_words(open))
    }
}

impl Span {
    /// How many steps of a machine are not closed.
    fn open_steps(&self, closed: &[&Closed], machine: usize) -> i64 {
        let hours: Vec<(i64, i64)> = closed
            .iter()
            .flat_map(|closed| closed.on(machine, self.first, self.last - 1))
            .collect();
        let is_open =
            |value: &i64| hours.iter().all(|(first, last)| value < first || last <= value);
        (self.first..self.last).filter(is_open).count() as i64
    }
}
