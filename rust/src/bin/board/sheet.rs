//! A board's text, read line by line, with the places that its parts come from.

use crate::board::Board;
use crate::clock::read_week;
use crate::closed::{self, Closed};
use crate::closings::{self, Closing};
use crate::complaint::{Complaint, Spot};
use crate::conditions::read_condition;
use crate::declarations::{read_choices, read_machine, read_numbers};
use crate::jobs::{read_job, Job};
use crate::literals::Part;
use crate::rules::{read_rule, Placed};
use crate::week::Week;
use crate::words::{Word, Words};
use std::collections::{HashMap, HashSet};
use std::ops::Range;

#[derive(Debug, Clone, Default)]
pub struct Sheet {
    pub board: Board,
    pub names: Names,
    pub spots: Spots,
    pub rules: Vec<Rule>,
    pub week: Option<Week>,
    /// The numbers whose values are clock hours.
    pub clocks: HashSet<u16>,
    pub machines: Vec<Machine>,
    pub jobs: Vec<Job>,
    pub closed: Vec<Closed>,
    pub closings: Vec<Closing>,
}

pub type Names = HashMap<String, Named>;

/// What a name stands for: a number or a machine counted from 0, or a choice counted from 1.
#[derive(Debug, Clone, Copy, PartialEq, Eq)]
pub enum Named {
    Number(u16),
    Choice(u16),
    Machine(usize),
}

#[derive(Debug, Clone)]
pub struct Machine {
    pub name: String,
    pub title: Option<String>,
    pub spot: Spot,
}

/// A rule that a line is, or that was made for a line.
#[derive(Debug, Clone)]
pub struct Rule {
    pub spot: Spot,
    /// As it is written, or in plain words where it was made.
    pub text: String,
    pub comment: String,
    /// What it was made for, such as `job 3 on kiln_a`; a line that is a rule itself has none.
    pub made_for: Option<String>,
    /// The machine without which it would not have been made.
    pub machine: Option<usize>,
    pub parts: Vec<Part>,
    /// Its clauses, as long as they have no place on the board.
    pub placed: Vec<Placed>,
    /// Where on the board its clauses are.
    pub clauses: Range<usize>,
}

/// Where in the text each part of the board stands.
#[derive(Debug, Clone, Default)]
pub struct Spots {
    pub numbers: Vec<NumberSpots>,
    pub choices: Vec<Spot>,
    pub clauses: Vec<ClauseSpots>,
}

#[derive(Debug, Clone, Copy)]
pub struct NumberSpots {
    pub name: Spot,
    pub lower: Spot,
    pub upper: Spot,
}

#[derive(Debug, Clone)]
pub struct ClauseSpots {
    pub rule: Spot,
    pub literals: Vec<Spot>,
}

/// Reads a whole text.
pub fn read_sheet(text: &str) -> Result<Sheet, Complaint> {
    let mut sheet = Sheet::default();
    for (index, line) in text.lines().enumerate() {
        read_line(&mut Words::of(line, index + 1), &mut sheet)?;
    }
    // These speak of all jobs, also of those that stand in later lines.
    closed::make_rules(&mut sheet)?;
    closings::make_rules(&mut sheet)?;
    sheet.settle();
    Ok(sheet)
}

fn read_line(words: &mut Words, sheet: &mut Sheet) -> Result<(), Complaint> {
    match words.peek()? {
        Word::End => Ok(()),
        Word::Name("number") => read_numbers(words, sheet),
        Word::Name("choice") => read_choices(words, sheet),
        Word::Name(first) if begins_a_line(words, first, sheet) => match first {
            "week" => read_week(words, sheet),
            "machine" => read_machine(words, sheet),
            "job" => read_job(words, sheet),
            "closed" => closed::read_closed(words, sheet),
            "closing" => closings::read_closing(words, sheet),
            "if" => read_condition(words, sheet),
            _ => read_rule(words, sheet),
        },
        _ => read_rule(words, sheet),
    }
}

/// Whether a line's first word has its meaning as such. A declared name has not, unless what follows it fits no rule.
fn begins_a_line(words: &Words, first: &str, sheet: &Sheet) -> bool {
    let fits_no_rule = match words.second() {
        Some(Word::Name(second)) => second != "or" && second != "before",
        Some(Word::Symbol(symbol)) => symbol == ":",
        _ => false,
    };
    !sheet.names.contains_key(first) || fits_no_rule
}

impl Sheet {
    /// The sheet with the rules that it has by now in their places.
    pub fn settled(&self) -> Sheet {
        let mut sheet = self.clone();
        sheet.settle();
        sheet
    }

    /// Gives the rules' clauses their places on the board, in the order of the lines.
    fn settle(&mut self) {
        self.rules.sort_by_key(|rule| rule.spot.line);
        for rule in &mut self.rules {
            let first = self.board.clauses.len();
            for (clause, literals) in rule.placed.drain(..) {
                self.board.clauses.push(clause);
                self.spots.clauses.push(ClauseSpots { rule: rule.spot, literals });
            }
            rule.clauses = first..self.board.clauses.len();
        }
    }

    /// The sheet with only some of its rules.
    pub fn only(&self, is_kept: impl FnMut(&Rule) -> bool) -> Sheet {
        let mut fewer = self.clone();
        fewer.rules.retain(is_kept);
        fewer.board.clauses.clear();
        fewer.spots.clauses.clear();
        for rule in &mut fewer.rules {
            let first = fewer.board.clauses.len();
            fewer.board.clauses.extend_from_slice(&self.board.clauses[rule.clauses.clone()]);
            fewer.spots.clauses.extend_from_slice(&self.spots.clauses[rule.clauses.clone()]);
            rule.clauses = first..fewer.board.clauses.len();
        }
        fewer
    }

    /// Notes of the rule that was made last which machine it was made for.
    pub fn last_is_for(&mut self, machine: Option<usize>) {
        if let Some(rule) = self.rules.last_mut() {
            rule.machine = machine;
        }
    }

    /// The rule that a clause of the board belongs to.
    pub fn rule_of_clause(&self, clause: usize) -> Option<&Rule> {
        let after = self.rules.partition_point(|rule| rule.clauses.end <= clause);
        self.rules.get(after)
    }

    /// The line that declares a name.
    pub fn line_of(&self, named: Named) -> usize {
        match named {
            Named::Number(number) => self.spots.numbers[usize::from(number)].name.line,
            Named::Choice(number) => self.spots.choices[usize::from(number) - 1].line,
            Named::Machine(machine) => self.machines[machine].spot.line,
        }
    }

    /// The job whose start this number is.
    pub fn job_of(&self, number: u16) -> Option<&Job> {
        self.jobs.iter().find(|job| job.number == number)
    }

    /// A number's value in words: clock hours where it has them.
    pub fn value_words(&self, number: u16, value: i64) -> String {
        match self.week {
            Some(week) if self.clocks.contains(&number) => week.words(value),
            _ => value.to_string(),
        }
    }

    /// So many steps in words that the text of a rule may have.
    pub fn duration_words(&self, steps: i64) -> String {
        self.week.map_or(steps.to_string(), |week| week.duration_words(steps))
    }

    /// A value in words that the text of a rule may have.
    pub fn time_words(&self, value: i64) -> String {
        self.week.map_or(value.to_string(), |week| week.words(value))
    }
}
