//! The lines that a board's rules speak of. A rule is there as long as all of its lines are.

use crate::sheet::{Rule, Sheet};
use basmuthar::Literal;
use std::cmp::Reverse;
use std::collections::{BTreeSet, HashMap};

pub type Lines = BTreeSet<usize>;

/// What a line is, in the order in which lines are left out.
#[derive(Debug, Clone, Copy, PartialEq, Eq)]
pub enum Kind {
    Machine,
    /// A job, or a number.
    Start,
    /// Closed hours, or a closing.
    Made,
    /// A rule that a member wrote, such as a booking.
    Written,
}

pub const LEFT_OUT_IN_TURN: [Kind; 4] = [Kind::Machine, Kind::Start, Kind::Made, Kind::Written];

/// For each rule of a board the lines that it speaks of, and for each of these lines what it is.
#[derive(Default)]
pub struct Spoken {
    rules: Vec<Lines>,
    kinds: HashMap<usize, Kind>,
    /// How many bookings speak of a line.
    bookings: HashMap<usize, usize>,
    /// For each job's line how long the job takes.
    takes: HashMap<usize, i64>,
}

impl Spoken {
    pub fn of(sheet: &Sheet) -> Spoken {
        let choices = job_choices(sheet);
        let takes = sheet.jobs.iter().map(|job| (job.spot.line, job.takes)).collect();
        let mut spoken = Spoken { takes, ..Spoken::default() };
        for rule in &sheet.rules {
            let starts = starts_in(sheet, rule, &choices);
            if rule.made_for.is_none() && starts.len() == 1 {
                spoken.count_booking(sheet, &starts);
            }
            spoken.note(sheet, rule, starts);
        }
        // A closing is a number too, but the rules about it are the program's own.
        spoken.kinds.extend(sheet.closings.iter().map(|closing| (closing.spot.line, Kind::Made)));
        spoken
    }

    /// Notes a rule that speaks of these jobs and numbers.
    fn note(&mut self, sheet: &Sheet, rule: &Rule, starts: Lines) {
        let own = if rule.made_for.is_none() { Kind::Written } else { Kind::Made };
        let machine = rule.machine.map(|machine| sheet.machines[machine].spot.line);
        self.kinds.entry(rule.spot.line).or_insert(own);
        self.kinds.extend(machine.map(|line| (line, Kind::Machine)));
        self.kinds.extend(starts.iter().map(|line| (*line, Kind::Start)));
        self.rules.push(starts.into_iter().chain(machine).chain([rule.spot.line]).collect());
    }

    /// Counts a booking, a rule that a member wrote about one job or number; it counts for the job's machines too.
    fn count_booking(&mut self, sheet: &Sheet, starts: &Lines) {
        let jobs = sheet.jobs.iter().filter(|job| starts.contains(&job.spot.line));
        let machines: Lines = jobs
            .flat_map(|job| &job.machines)
            .map(|on| sheet.machines[on.machine].spot.line)
            .collect();
        for line in starts.union(&machines) {
            *self.bookings.entry(*line).or_default() += 1;
        }
    }

    pub fn kind(&self, line: usize) -> Kind {
        self.kinds.get(&line).copied().unwrap_or(Kind::Written)
    }

    /// Whether each rule is still there where only these lines are.
    pub fn there(&self, lines: &Lines) -> Vec<bool> {
        self.rules.iter().map(|rule| rule.is_subset(lines)).collect()
    }

    /// Those of these lines that a rule speaks of that is still there: the others change nothing.
    pub fn with_a_rule(&self, lines: &Lines) -> Lines {
        self.rules.iter().filter(|rule| rule.is_subset(lines)).flatten().copied().collect()
    }

    /// The lines that all of these rules speak of; none where there is no rule.
    pub fn in_all(&self, rules: impl Iterator<Item = usize>) -> Lines {
        let lines = rules.map(|rule| self.rules[rule].clone());
        lines.reduce(|common, lines| &common & &lines).unwrap_or_default()
    }

    /// All lines that any rule speaks of.
    pub fn all(&self) -> Lines {
        self.rules.iter().flatten().copied().collect()
    }

    /// The lines of a kind in the order in which they are left out: those without a booking first, and short jobs before long
    /// ones, which are more likely to be what a machine is full with.
    pub fn in_turn(&self, lines: &Lines, kind: Kind) -> Vec<usize> {
        let mut turn: Vec<usize> =
            lines.iter().copied().filter(|line| self.kind(*line) == kind).collect();
        let key = |line: &usize| (self.bookings.get(line), self.takes.get(line), Reverse(*line));
        turn.sort_by(|one, other| key(one).cmp(&key(other)));
        turn
    }
}

/// For each choice of a machine the line of its job.
fn job_choices(sheet: &Sheet) -> HashMap<u16, usize> {
    let choices = sheet.jobs.iter().flat_map(|job| job.machines.iter().map(move |on| (job, on)));
    choices.filter_map(|(job, on)| Some((on.choice?, job.spot.line))).collect()
}

/// The lines of the jobs and numbers in a rule.
fn starts_in(sheet: &Sheet, rule: &Rule, choices: &HashMap<u16, usize>) -> Lines {
    let mut lines = Lines::new();
    for literal in sheet.board.clauses[rule.clauses.clone()].iter().flatten() {
        match literal {
            Literal::Choice { number, .. } => lines.extend(choices.get(number)),
            Literal::Comparison(comparison) => lines.extend(
                comparison
                    .terms
                    .iter()
                    .map(|term| sheet.spots.numbers[usize::from(term.variable)].name.line),
            ),
        }
    }
    lines
}
