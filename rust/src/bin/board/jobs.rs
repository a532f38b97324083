//! Jobs on machines: what they are, and their lines.

use crate::clock::{read_duration, read_value};
use crate::complaint::{fitted, Complaint, Spot};
use crate::declarations::{add_choice, add_number, BOUND};
use crate::overlaps::{one_at_a_time, one_machine_each};
use crate::sheet::{Named, NumberSpots, Sheet};
use crate::words::{Word, Words};

/// A job begins in the hour that its number says.
#[derive(Debug, Clone)]
pub struct Job {
    pub name: String,
    pub title: Option<String>,
    pub spot: Spot,
    pub number: u16,
    /// The machines that it may be on; where there are several, each with its choice.
    pub machines: Vec<OnMachine>,
    /// From its begin to its unloading, in steps.
    pub takes: i64,
    /// The same, part by part.
    pub phases: Vec<Phase>,
    /// The first and the last value at which it may begin.
    pub begins: (i64, i64),
}

/// A part of what a job takes, in steps, and the word for it; the job's own work comes first and has none.
#[derive(Debug, Clone)]
pub struct Phase {
    pub steps: i64,
    pub what: Option<String>,
}

#[derive(Debug, Clone, Copy)]
pub struct OnMachine {
    pub machine: usize,
    pub choice: Option<u16>,
}

impl Job {
    /// The first and the last value at which it may end.
    pub fn ends(&self) -> (i64, i64) {
        (self.begins.0 + self.takes, self.begins.1 + self.takes)
    }

    pub fn on(&self, machine: usize) -> Option<OnMachine> {
        self.machines.iter().copied().find(|on| on.machine == machine)
    }

    /// `mugs + 13 h`.
    pub fn end_words(&self, sheet: &Sheet) -> String {
        format!("{} + {}", self.name, sheet.duration_words(self.takes))
    }

    /// `not mugs_on_kiln_a or `, where the job may be on another machine too.
    pub fn unless_elsewhere(&self, sheet: &Sheet, machine: usize) -> String {
        match self.on(machine).and_then(|on| on.choice) {
            Some(choice) => format!("not {} or ", sheet.board.choices[usize::from(choice) - 1]),
            None => String::new(),
        }
    }
}

/// Reads `job mugs "Mugs, glaze" on kiln_a or kiln_b takes 7 h then 6 h cooling : Mon 07:00 .. Sun 20:00`.
pub fn read_job(words: &mut Words, sheet: &mut Sheet) -> Result<(), Complaint> {
    let spot = words.spot();
    words.take()?;
    let name_spot = words.spot();
    let name = words.name()?.to_string();
    let title = words.text()?.map(str::to_string);
    words.word("on")?;
    let machines = read_machines(words, sheet)?;
    words.word("takes")?;
    let phases = read_phases(words, sheet)?;
    let takes = phases.iter().map(|phase| phase.steps).sum();
    let window = read_window(words, sheet, takes)?;
    words.end("the end of the line")?;
    let spots = NumberSpots { name: name_spot, lower: window.spot, upper: window.spot };
    let lower = fitted(window.begins.0, window.spot, BOUND)?;
    let upper = fitted(window.begins.1, window.spot, BOUND)?;
    let number = add_number(sheet, &name, (lower, upper), spots)?;
    if sheet.week.is_some() {
        sheet.clocks.insert(number);
    }
    let machines = add_machine_choices(sheet, &name, name_spot, &machines)?;
    let job = Job { name, title, spot, number, machines, takes, phases, begins: window.begins };
    one_machine_each(sheet, &job)?;
    one_at_a_time(sheet, &job)?;
    sheet.jobs.push(job);
    Ok(())
}

/// Reads machines joined by `or`.
fn read_machines(words: &mut Words, sheet: &Sheet) -> Result<Vec<usize>, Complaint> {
    let mut machines = Vec::new();
    loop {
        let spot = words.spot();
        let machine = read_machine_name(words, sheet)?;
        if machines.contains(&machine) {
            return Err(Complaint::new(spot, "expected each machine once"));
        }
        machines.push(machine);
        if !words.take_if(Word::Name("or"))? {
            return Ok(machines);
        }
    }
}

pub fn read_machine_name(words: &mut Words, sheet: &Sheet) -> Result<usize, Complaint> {
    if let Word::Name(name) = words.peek()? {
        if let Some(Named::Machine(machine)) = sheet.names.get(name) {
            words.take()?;
            return Ok(*machine);
        }
    }
    Err(words.expected("the name of a machine that is declared above"))
}

/// Reads `7 h then 6 h cooling`.
fn read_phases(words: &mut Words, sheet: &Sheet) -> Result<Vec<Phase>, Complaint> {
    let mut phases = vec![Phase { steps: read_duration(words, sheet)?.steps, what: None }];
    while words.take_if(Word::Name("then"))? {
        let steps = read_duration(words, sheet)?.steps;
        let Word::Name(what) = words.peek()? else {
            return Err(words.expected("a word that says what for, such as `cooling`"));
        };
        words.take()?;
        phases.push(Phase { steps, what: Some(what.to_string()) });
    }
    Ok(phases)
}

struct Window {
    spot: Spot,
    begins: (i64, i64),
}

/// Reads `: Mon 07:00 .. Sun 20:00`, within which the whole job has to be; without it, the job is within the first week.
fn read_window(words: &mut Words, sheet: &Sheet, takes: i64) -> Result<Window, Complaint> {
    let mut spot = words.spot();
    let (first, last) = match (words.peek()?, sheet.week) {
        (Word::End, Some(week)) => (0, week.steps_in_a_week()),
        _ => {
            words.symbol(":")?;
            spot = words.spot();
            let first = read_value(words, sheet)?;
            words.symbol("..")?;
            (first, read_value(words, sheet)?)
        }
    };
    if last - first < takes {
        let [room, takes] = [last - first, takes].map(|steps| sheet.duration_words(steps));
        let words = format!("expected room for the whole job, which takes {takes}: here is {room}");
        return Err(Complaint::new(spot, words));
    }
    Ok(Window { spot, begins: (first, last - takes) })
}

/// Where there are several machines, a choice for each.
fn add_machine_choices(
    sheet: &mut Sheet,
    job: &str,
    spot: Spot,
    machines: &[usize],
) -> Result<Vec<OnMachine>, Complaint> {
    let mut on = Vec::new();
    for &machine in machines {
        let choice = match machines.len() {
            1 => None,
            _ => {
                let name = format!("{job}_on_{}", sheet.machines[machine].name);
                Some(add_choice(sheet, &name, spot)?)
            }
        };
        on.push(OnMachine { machine, choice });
    }
    Ok(on)
}
