//! The rules that a job is on one machine, and that no two jobs are on one machine at a time.

use crate::complaint::Complaint;
use crate::jobs::Job;
use crate::rules::make_rule;
use crate::sheet::Sheet;

/// A job with several machines is on one of them, and on no two.
pub fn one_machine_each(sheet: &mut Sheet, job: &Job) -> Result<(), Complaint> {
    let choices: Vec<String> = job
        .machines
        .iter()
        .filter_map(|on| on.choice)
        .map(|choice| sheet.board.choices[usize::from(choice) - 1].clone())
        .collect();
    if choices.is_empty() {
        return Ok(());
    }
    let made_for = format!("job {}", job.name);
    let comment = format!("{} is on one machine", job.name);
    make_rule(sheet, job.spot, choices.join(" or "), comment, &made_for)?;
    for (index, one) in choices.iter().enumerate() {
        for other in &choices[index + 1..] {
            let comment = format!("{} is on no two machines", job.name);
            make_rule(sheet, job.spot, format!("not {one} or not {other}"), comment, &made_for)?;
        }
    }
    Ok(())
}

/// On each of its machines a job is over before another begins, or the other way round.
pub fn one_at_a_time(sheet: &mut Sheet, job: &Job) -> Result<(), Complaint> {
    for on in &job.machines {
        let machine = on.machine;
        let earlier: Vec<Job> =
            sheet.jobs.iter().filter(|other| other.on(machine).is_some()).cloned().collect();
        let name = sheet.machines[machine].name.clone();
        let made_for = format!("job {} on {name}", earlier.len() + 1);
        for other in earlier.iter().filter(|other| may_meet(other, job)) {
            let unless =
                other.unless_elsewhere(sheet, machine) + &job.unless_elsewhere(sheet, machine);
            let (one, two) = (other.end_words(sheet), job.end_words(sheet));
            let text = format!("{unless}{one} <= {} or {two} <= {}", job.name, other.name);
            let comment = format!("one at a time on {name}");
            make_rule(sheet, job.spot, text, comment, &made_for)?;
            sheet.last_is_for(Some(machine));
        }
    }
    Ok(())
}

/// Whether two jobs may be on a machine at the same time; if not, they need no rule.
fn may_meet(one: &Job, other: &Job) -> bool {
    one.ends().1 > other.begins.0 && other.ends().1 > one.begins.0
}
