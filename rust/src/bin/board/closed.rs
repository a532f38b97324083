//! Closed hours: nobody begins or unloads a job then; a job may run through them.

use crate::clock::{take_hours, Hours, NEEDS_WEEK};
use crate::complaint::{Complaint, Spot};
use crate::jobs::{read_machine_name, Job};
use crate::rules::make_rule;
use crate::sheet::Sheet;
use crate::words::{Word, Words};

#[derive(Debug, Clone)]
pub struct Closed {
    pub spot: Spot,
    comment: String,
    /// The machines that are closed; none is named where all are.
    machines: Vec<usize>,
    /// From the first value, up to but not with the second.
    hours: (i64, i64),
    /// After so many steps it is closed again.
    again: Option<i64>,
}

/// Reads `closed : every day 21:00 .. 07:00`, `closed : Sat 20:00 .. Mon 07:00` or `closed kiln_a, loom : ..`.
pub fn read_closed(words: &mut Words, sheet: &mut Sheet) -> Result<(), Complaint> {
    let spot = words.spot();
    words.take()?;
    let mut machines = Vec::new();
    while words.peek()? != Word::Symbol(":") {
        machines.push(read_machine_name(words, sheet)?);
        if !words.take_if(Word::Symbol(","))? {
            break;
        }
    }
    words.symbol(":")?;
    let hours_spot = words.spot();
    let (first, last, again) = read_hours(words, sheet)?;
    words.end("the end of the line")?;
    let last = match again {
        Some(again) if last < first => last + again,
        _ => last,
    };
    if last <= first {
        return Err(Complaint::new(hours_spot, "expected an end after the begin"));
    }
    let comment = words.comment().to_string();
    sheet.closed.push(Closed { spot, comment, machines, hours: (first, last), again });
    Ok(())
}

/// First and last value, and after how many steps they come again.
fn read_hours(words: &mut Words, sheet: &Sheet) -> Result<(i64, i64, Option<i64>), Complaint> {
    if words.take_if(Word::Name("every"))? {
        words.word("day")?;
        let first = read_clock(words, sheet)?;
        words.symbol("..")?;
        let last = read_clock(words, sheet)?;
        return Ok((first, last, sheet.week.map(|week| week.steps_in_a_day())));
    }
    let first = take_hours(words, sheet)?.map_or_else(|| once(words), Ok)?;
    words.symbol("..")?;
    let last = take_hours(words, sheet)?.map_or_else(|| once(words), Ok)?;
    let comes_again = !first.has_week && !last.has_week;
    let again = sheet.week.map(|week| week.steps_in_a_week()).filter(|_| comes_again);
    Ok((first.value, last.value, again))
}

/// A whole number, which means one value only.
fn once(words: &mut Words) -> Result<Hours, Complaint> {
    Ok(Hours { value: words.integer()?, has_week: true })
}

/// Reads a clock without a weekday.
fn read_clock(words: &mut Words, sheet: &Sheet) -> Result<i64, Complaint> {
    let spot = words.spot();
    let Some(week) = sheet.week else {
        return Err(Complaint::new(spot, format!("clock hours need {NEEDS_WEEK}")));
    };
    let minute = words.clock()?;
    week.value_of_day(minute).ok_or_else(|| {
        let words = format!("expected clock hours in steps of {}", week.step_words());
        Complaint::new(spot, words)
    })
}

/// Makes the rules of all closed hours for all jobs.
pub fn make_rules(sheet: &mut Sheet) -> Result<(), Complaint> {
    for closed in sheet.closed.clone() {
        for job in sheet.jobs.clone() {
            let machines = match closed.machines[..] {
                [] => vec![None],
                _ => closed.machines_of(&job),
            };
            for machine in machines {
                closed.keep_off(sheet, &job, machine)?;
            }
        }
    }
    Ok(())
}

impl Closed {
    /// The closed hours of a machine that values from least to greatest can meet.
    pub fn on(&self, machine: usize, least: i64, greatest: i64) -> Vec<(i64, i64)> {
        if self.is_of(machine) {
            self.within(least, greatest)
        } else {
            Vec::new()
        }
    }

    /// The closed machines that a job may be on.
    fn machines_of(&self, job: &Job) -> Vec<Option<usize>> {
        let machines = self.machines.iter().filter(|machine| job.on(**machine).is_some());
        machines.copied().map(Some).collect()
    }

    /// The job neither begins nor ends in these hours, on this machine or on any.
    fn keep_off(
        &self,
        sheet: &mut Sheet,
        job: &Job,
        machine: Option<usize>,
    ) -> Result<(), Complaint> {
        let unless = machine.map_or(String::new(), |machine| job.unless_elsewhere(sheet, machine));
        let made_for = format!("closed hours and job {}", job.name);
        let end = job.end_words(sheet);
        let sides = [(job.name.as_str(), job.begins, "begins"), (&end, job.ends(), "unloads")];
        for (side, (least, greatest), what) in sides {
            for (first, last) in self.within(least, greatest) {
                let [first, last] = [first, last].map(|value| sheet.time_words(value));
                let text = format!("{unless}{side} < {first} or {side} >= {last}");
                let closed = if self.comment.is_empty() { "closed" } else { &self.comment };
                let comment = format!("{closed}: nobody {what}");
                make_rule(sheet, self.spot, text, comment, &made_for)?;
                sheet.last_is_for(machine);
            }
        }
        Ok(())
    }

    /// Whether it speaks of a machine.
    pub fn is_of(&self, machine: usize) -> bool {
        self.machines.is_empty() || self.machines.contains(&machine)
    }

    /// The closed hours that values from least to greatest can meet.
    fn within(&self, least: i64, greatest: i64) -> Vec<(i64, i64)> {
        let (first, last) = self.hours;
        let Some(again) = self.again else {
            return if first <= greatest && least < last { vec![self.hours] } else { Vec::new() };
        };
        let from = (least - last).div_euclid(again) + 1;
        let to = (greatest - first).div_euclid(again);
        (from..=to).map(|times| (first + times * again, last + times * again)).collect()
    }
}
