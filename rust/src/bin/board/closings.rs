//! Closing hours: numbers that are not before the end of some jobs, or of all.

use crate::complaint::{fitted, Complaint, Spot};
use crate::declarations::{add_number, BOUND};
use crate::jobs::Job;
use crate::rules::make_rule;
use crate::sheet::{NumberSpots, Sheet};
use crate::words::{Word, Words};

#[derive(Debug, Clone)]
pub struct Closing {
    pub spot: Spot,
    name: String,
    number: u16,
    /// The jobs that it comes after; none is named where all are meant.
    jobs: Vec<String>,
}

/// Reads `closing done after mugs, plates`, or `closing done` for all jobs.
pub fn read_closing(words: &mut Words, sheet: &mut Sheet) -> Result<(), Complaint> {
    let spot = words.spot();
    words.take()?;
    let name_spot = words.spot();
    let name = words.name()?.to_string();
    let mut jobs = Vec::new();
    if words.take_if(Word::Name("after"))? {
        loop {
            jobs.push(read_job_name(words, sheet)?);
            if !words.take_if(Word::Symbol(","))? {
                break;
            }
        }
        words.end("`,` or the end of the line")?;
    }
    words.end("`after` or the end of the line")?;
    let spots = NumberSpots { name: name_spot, lower: name_spot, upper: name_spot };
    // Its bounds are known when all jobs are.
    let number = add_number(sheet, &name, (0, 0), spots)?;
    if sheet.week.is_some() {
        sheet.clocks.insert(number);
    }
    sheet.closings.push(Closing { spot, name, number, jobs });
    Ok(())
}

fn read_job_name(words: &mut Words, sheet: &Sheet) -> Result<String, Complaint> {
    match words.peek()? {
        Word::Name(name) if sheet.jobs.iter().any(|job| job.name == name) => {
            words.take()?;
            Ok(name.to_string())
        }
        _ => Err(words.expected("the name of a job that is declared above")),
    }
}

/// Gives every closing its bounds, and makes its rules.
pub fn make_rules(sheet: &mut Sheet) -> Result<(), Complaint> {
    for closing in sheet.closings.clone() {
        let is_meant = |job: &&Job| closing.jobs.is_empty() || closing.jobs.contains(&job.name);
        let jobs: Vec<Job> = sheet.jobs.iter().filter(is_meant).cloned().collect();
        let least = jobs.iter().map(|job| job.ends().0).max();
        let greatest = jobs.iter().map(|job| job.ends().1).max();
        let (Some(least), Some(greatest)) = (least, greatest) else {
            let words = "expected a job to come after: the board has none";
            return Err(Complaint::new(closing.spot, words));
        };
        let bounds = &mut sheet.board.numbers[usize::from(closing.number)];
        bounds.lower = fitted(least, closing.spot, BOUND)?;
        bounds.upper = fitted(greatest, closing.spot, BOUND)?;
        for job in jobs {
            let text = format!("{} <= {}", job.end_words(sheet), closing.name);
            let comment = format!("{} is over by {}", job.name, closing.name);
            make_rule(sheet, closing.spot, text, comment, &format!("closing {}", closing.name))?;
        }
    }
    Ok(())
}
