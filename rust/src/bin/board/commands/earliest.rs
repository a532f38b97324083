//! `board earliest`: the least value of a number over all solutions, by questions to the user's own solver.
//!
//! All that is printed reads as values with comments: questions, replies and the result are lines of `#`.

use crate::board::Setting;
use crate::clauses::{at_most, Clauses};
use crate::opened::Opened;
use crate::output::{put, put_asked};
use crate::placement::placement_words;
use crate::sheet::Named;
use crate::solution::{decoded, no_solution};
use crate::solver::{Question, Said, Solver};
use crate::trouble::{Status, Trouble};
use basmuthar::Stopped;

/// So many names are told where another one was expected.
const MOST_NAMES: usize = 12;

pub fn run(file: &str, name: &str, solver: &Solver) -> Result<bool, Trouble> {
    let opened = Opened::open(file)?;
    let number = number_named(file, &opened, name)?;
    let clauses = Clauses::of(&opened)?;
    let mut search = Search {
        opened: &opened,
        clauses: &clauses,
        solver,
        number,
        questions: 0,
        greatest_no: None,
        shown: None,
    };
    let found = basmuthar::earliest(&opened.record, number, |hour| search.ask(hour));
    match found {
        Ok(found) => search.tell(file, found),
        Err(Stopped::Refused(refusal)) => Err(opened.refused(refusal, None).into()),
        Err(Stopped::Asking(trouble)) => Err(trouble),
    }
}

/// The number of a name, counted from 0.
fn number_named(file: &str, opened: &Opened, name: &str) -> Result<usize, String> {
    let found = match opened.sheet.names.get(name) {
        Some(Named::Number(number)) => return Ok(usize::from(*number)),
        Some(Named::Choice(_)) => format!("`{name}`, which is a choice"),
        Some(Named::Machine(_)) => format!("`{name}`, which is a machine"),
        None => format!("`{name}`"),
    };
    let numbers = &opened.sheet.board.numbers;
    let names = numbers.iter().take(MOST_NAMES).map(|number| number.name.as_str());
    let more = if numbers.len() > MOST_NAMES { ", .." } else { "" };
    let known = match names.collect::<Vec<_>>().join(", ") {
        names if names.is_empty() => "it has none".to_string(),
        names => format!("its numbers are {names}{more}"),
    };
    Err(format!("{file}: expected the name of a number of the board ({known}), found {found}"))
}

struct Search<'a> {
    opened: &'a Opened,
    clauses: &'a Clauses,
    solver: &'a Solver<'a>,
    number: usize,
    questions: usize,
    /// The greatest hour to which the solver said no.
    greatest_no: Option<i32>,
    /// Of the solutions that were shown, the one with the least value of the number.
    shown: Option<Setting>,
}

impl Search<'_> {
    fn name(&self) -> &str {
        &self.opened.sheet.board.numbers[self.number].name
    }

    /// A value of the number, in words.
    fn hour(&self, value: i32) -> String {
        self.opened.sheet.value_words(self.number as u16, value.into())
    }

    fn least_shown(&self) -> Option<i32> {
        self.shown.as_ref().map(|setting| setting.numbers[self.number])
    }

    /// Puts the question whether the number can be at most this, and prints it with its reply.
    fn ask(&mut self, hour: i32) -> Result<bool, Trouble> {
        let words = format!("{} at most {}", self.name(), self.hour(hour));
        put_asked(&words, || self.reply(hour, words.clone()))
    }

    fn reply(&mut self, hour: i32, words: String) -> Result<bool, Trouble> {
        let added = [at_most(&self.opened.sheet.board, self.number, hour)];
        let question = Question { words, clauses: self.clauses, added: &added };
        self.questions += 1;
        let said = self.solver.ask(&question)?;
        match &said {
            Said::No => self.greatest_no = self.greatest_no.max(Some(hour)),
            Said::Yes(model) => self.look_at(model, hour, &question)?,
        }
        self.agree(&question)?;
        Ok(said != Said::No)
    }

    /// A yes counts only if its model is a solution that keeps to the question.
    fn look_at(&mut self, model: &[u8], hour: i32, question: &Question) -> Result<(), Trouble> {
        let setting = decoded(self.opened, model)
            .map_err(|refused| self.solver.wrong_yes(question, &refused))?;
        let value = setting.numbers[self.number];
        if value > hour {
            let (name, value) = (self.name(), self.hour(value));
            let words = format!("says yes, and its model has {name} = {value}.");
            return Err(self.solver.no_answer(question, &words));
        }
        if self.least_shown().is_none_or(|least| value <= least) {
            self.shown = Some(setting);
        }
        Ok(())
    }

    /// A no is contradicted by a solution at or below its hour, whichever came first.
    fn agree(&self, question: &Question) -> Result<(), Trouble> {
        match (self.greatest_no, self.least_shown()) {
            (Some(no), Some(value)) if value <= no => {
                let (name, no, value) = (self.name(), self.hour(no), self.hour(value));
                let words = format!(
                    "contradicts itself: it says no to {name} at most {no}, and shows a solution with \
                     {name} = {value}."
                );
                Err(self.solver.contradiction(question, &words))
            }
            _ => Ok(()),
        }
    }

    /// Prints what was found, and the solution that shows it.
    fn tell(&self, file: &str, found: Option<i32>) -> Result<bool, Trouble> {
        let (name, questions) = (self.name(), counted(self.questions));
        match (found, &self.shown) {
            (Some(value), Some(setting)) if self.least_shown() == found => {
                let value = self.hour(value);
                let words = format!("# the earliest: {name} = {value}, after {questions}\n");
                put((words + &placement_words(&self.opened.sheet, setting)).as_bytes())
            }
            (Some(value), _) => {
                let value = self.hour(value);
                let words = format!("{file}: {name} = {value} was found, and no solution shows it");
                Err(Trouble::new(Status::SolverFailed, words))
            }
            (None, _) => {
                let upper = self.hour(self.opened.sheet.board.numbers[self.number].upper.into());
                let words =
                    format!("the solver says no to {name} at most {upper}, its upper bound");
                Err(no_solution(file, &words)?)
            }
        }
    }
}

fn counted(questions: usize) -> String {
    let ending = if questions == 1 { "" } else { "s" };
    format!("{questions} question{ending}")
}
