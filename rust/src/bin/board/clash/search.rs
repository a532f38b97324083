//! The search: what is left out, what the solver says to it, and what its solutions show besides.

use super::limit::{Limit, Share, SHARES, WHOLE};
use super::lines::{Lines, Spoken, LEFT_OUT_IN_TURN};
use crate::board::Setting;
use crate::clauses::Clauses;
use crate::judging::clauses_hold;
use crate::opened::Opened;
use crate::progress::Progress;
use crate::sheet::Rule;
use crate::solution::decoded;
use crate::solver::{Question, Said, Solver};
use crate::trouble::{Status, Trouble};
use std::time::Instant;

pub struct Search<'a> {
    opened: &'a Opened,
    solver: &'a Solver<'a>,
    limit: Option<Limit>,
    progress: Progress,
    spoken: Spoken,
    /// The lines that have no solution together, on the solver's word.
    kept: Lines,
    /// For each solution that the solver has shown, the rules of the board that it breaks.
    broken: Vec<Vec<usize>>,
    questions: usize,
}

/// Lines that have no solution together.
pub struct Found {
    pub lines: Lines,
    /// Those of them that may not be needed, for all that is known.
    pub unsure: Lines,
    pub spoken: Spoken,
}

/// What is known of some lines.
enum Known {
    Solution,
    NoSolution,
    /// The solver has not replied in the time that a question may take.
    NoReply,
}

impl<'a> Search<'a> {
    pub fn new(opened: &'a Opened, solver: &'a Solver<'a>, limit: Option<Limit>) -> Search<'a> {
        let spoken = Spoken::of(&opened.sheet);
        let kept = spoken.all();
        let progress = Progress::new();
        Search { opened, solver, limit, progress, spoken, kept, broken: Vec::new(), questions: 0 }
    }

    /// Whether there is a solution with all lines.
    pub fn has_solution(&mut self) -> Result<bool, Trouble> {
        let until = self.limit.map(|limit| limit.until(WHOLE));
        let known = self.asked(&self.kept.clone(), "a solution with all lines", until)?;
        Ok(matches!(known, Known::Solution))
    }

    /// Leaves out what can be left out, until each line is known to be needed or something stops it. Where there is a
    /// limit, hard questions are passed over at first, and have more time when the others are answered.
    pub fn narrow(&mut self) -> Result<(), Trouble> {
        for share in SHARES {
            self.narrow_by(share)?;
        }
        Ok(())
    }

    /// The same kind after kind, with a share of the time for each question.
    fn narrow_by(&mut self, share: Share) -> Result<(), Trouble> {
        for kind in LEFT_OUT_IN_TURN {
            let turn = self.spoken.in_turn(&self.unsure(), kind);
            self.leave_out(&turn, share)?;
        }
        Ok(())
    }

    pub fn found(self) -> Found {
        Found { unsure: self.unsure(), lines: self.kept, spoken: self.spoken }
    }

    /// Leaves out these lines if there is still no solution without them, otherwise one half of them and then the other.
    fn leave_out(&mut self, lines: &[usize], share: Share) -> Result<(), Trouble> {
        let lines: Vec<usize> =
            lines.iter().copied().filter(|line| self.kept.contains(line)).collect();
        if lines.is_empty() {
            return Ok(());
        }
        let rest: Lines = self.kept.iter().copied().filter(|line| !lines.contains(line)).collect();
        match self.known_of(&rest, &lines, share)? {
            Known::NoSolution => self.kept = self.spoken.with_a_rule(&rest),
            Known::Solution if lines.len() > 1 => {
                let (first, second) = lines.split_at(lines.len() / 2);
                self.leave_out(first, share)?;
                self.leave_out(second, share)?;
            }
            // With fewer lines left out, a question is hardly easier.
            Known::Solution | Known::NoReply => {}
        }
        Ok(())
    }

    /// Whether the rest of the lines has a solution: shown before, or by a question to the solver.
    fn known_of(
        &mut self,
        rest: &Lines,
        left_out: &[usize],
        share: Share,
    ) -> Result<Known, Trouble> {
        if self.is_shown(rest) {
            return Ok(Known::Solution);
        }
        let until = self.limit.map(|limit| limit.until(share));
        self.asked(rest, &format!("a solution without {}", lines_words(left_out)), until)
    }

    /// Whether a solution of these lines was shown before: one that breaks only rules that are not there.
    fn is_shown(&self, lines: &Lines) -> bool {
        let there = self.spoken.there(lines);
        self.broken.iter().any(|broken| broken.iter().all(|rule| !there[*rule]))
    }

    /// The kept lines without which no solution was shown.
    fn unsure(&self) -> Lines {
        let there = self.spoken.there(&self.kept);
        let mut unsure = self.kept.clone();
        for broken in &self.broken {
            // A solution is one without a line if each rule that it breaks speaks of that line.
            let broken = broken.iter().copied().filter(|rule| there[*rule]);
            unsure = &unsure - &self.spoken.in_all(broken);
        }
        unsure
    }

    /// Puts the question to the solver whether these lines alone have a solution.
    fn asked(
        &mut self,
        lines: &Lines,
        words: &str,
        until: Option<Instant>,
    ) -> Result<Known, Trouble> {
        self.questions += 1;
        let (questions, kept) = (self.questions, self.kept.len());
        self.progress.show(&format!("question {questions}: {words}? {kept} lines are left"));
        let mut there = self.spoken.there(lines).into_iter();
        let fewer = self.opened.only(|_: &Rule| there.next() == Some(true))?;
        let clauses = Clauses::of(&fewer)?;
        let question = Question { words: words.to_string(), clauses: &clauses, added: &[] };
        match self.solver.ask_until(&question, until) {
            Ok(Said::No) => Ok(Known::NoSolution),
            Ok(Said::Yes(model)) => {
                let setting = decoded(&fewer, &model)
                    .map_err(|refused| self.solver.wrong_yes(&question, &refused))?;
                self.note(&setting, &question)?;
                Ok(Known::Solution)
            }
            Err(trouble) if self.may_go_on(&trouble) => Ok(Known::NoReply),
            Err(trouble) => Err(trouble),
        }
    }

    /// Whether only the time of one question is up.
    fn may_go_on(&self, trouble: &Trouble) -> bool {
        let has_time = self.limit.is_some_and(|limit| !limit.is_over());
        trouble.status == Status::TimeIsUp && has_time
    }

    /// Notes a solution. Once the solver has said no to the kept lines, it may show none of them all.
    fn note(&mut self, setting: &Setting, question: &Question) -> Result<(), Trouble> {
        let broken = self.broken_by(setting)?;
        let there = self.spoken.there(&self.kept);
        let is_of_all_kept = broken.iter().all(|rule| !there[*rule]);
        if self.questions > 1 && is_of_all_kept {
            let words =
                "contradicts itself: it shows a solution of lines to which it said no before.";
            return Err(self.solver.contradiction(question, words));
        }
        self.broken.push(broken);
        Ok(())
    }

    /// The rules of the whole board that do not hold at a setting.
    fn broken_by(&self, setting: &Setting) -> Result<Vec<usize>, Trouble> {
        let sheet = &self.opened.sheet;
        let mut broken = Vec::new();
        for (index, rule) in sheet.rules.iter().enumerate() {
            let clauses = &sheet.board.clauses[rule.clauses.clone()];
            let holds = clauses_hold(sheet, clauses, setting)
                .map_err(|refusal| self.opened.refused(refusal, Some(rule.spot)))?;
            if !holds {
                broken.push(index);
            }
        }
        Ok(broken)
    }
}

/// `line 7`, or `12 lines from 7 to 40`.
fn lines_words(lines: &[usize]) -> String {
    let (first, last) = (lines.iter().min(), lines.iter().max());
    match (lines.len(), first, last) {
        (1, Some(line), _) => format!("line {line}"),
        (count, Some(first), Some(last)) => format!("{count} lines from {first} to {last}"),
        _ => "any line".to_string(),
    }
}
