//! Counts of what was met: answers by operation and refusal, ways of drawing, demand 3.

use crate::outcomes::Outcomes;
use crate::text_outcomes::TextOutcomes;
use std::collections::{BTreeMap, BTreeSet};

#[derive(Debug, Clone, Copy)]
pub enum Operation {
    Size,
    Compile,
    Decode,
    Judge,
    Image,
    Closing,
    WriteText,
    ReadText,
    ReadReply,
}

/// The names of the operations in the table.
const OPERATIONS: [&str; 9] = [
    "size", "compile", "decode", "judge", "image", "closing", "write", "read", "reply",
];

/// The numbers of the refusals.
const REFUSALS: [usize; 21] = [
    1, 2, 3, 4, 5, 6, 7, 8, 9, 10, 11, 12, 13, 14, 15, 16, 17, 18, 19, 22, 23,
];

/// The refusals of a comparison's parts, which have to be met at several places each.
const PARTS: [usize; 4] = [7, 15, 16, 17];

/// The refusals that other operations share and an operation has to meet by itself.
const OWN: [(Operation, usize); 6] = [
    (Operation::Closing, 12),
    (Operation::WriteText, 10),
    (Operation::ReadText, 10),
    (Operation::ReadText, 18),
    (Operation::ReadReply, 18),
    (Operation::ReadReply, 11),
];

#[derive(Default)]
pub struct Tally {
    /// For each operation, how often each number was answered; 0 is accepted.
    answers: [[u64; 24]; OPERATIONS.len()],
    /// The places at which a part of a comparison was refused, for each of `PARTS`.
    places: [BTreeSet<u64>; PARTS.len()],
    ways: BTreeMap<String, u64>,
    /// Boards, models, plain models and solutions of demand 3.
    pub demand: [u64; 4],
    pub outcomes: Outcomes,
    pub texts: TextOutcomes,
}

impl Tally {
    pub fn answered(&mut self, operation: Operation, number: u64, detail: u64) {
        if let Some(count) = self.answers[operation as usize].get_mut(number as usize) {
            *count += 1;
        }
        if let Some(part) = PARTS.iter().position(|&part| part as u64 == number) {
            self.places[part].insert(detail);
        }
    }

    pub fn drawn(&mut self, way: String) {
        *self.ways.entry(way).or_default() += 1;
    }

    fn total(&self, number: usize) -> u64 {
        self.answers.iter().map(|counts| counts[number]).sum()
    }

    /// The refusals that no operation answered, and what Closing and the readers of text never met.
    pub fn never_met(&self) -> Vec<String> {
        let missing = REFUSALS.iter().filter(|&&number| self.total(number) == 0);
        let mut names: Vec<String> = missing.map(|number| format!("refusal {number}")).collect();
        for (operation, number) in OWN {
            if self.answers[operation as usize][number] == 0 {
                names.push(format!("{operation:?} refusal {number}"));
            }
        }
        for (part, places) in PARTS.iter().zip(&self.places) {
            if places.len() < 2 {
                names.push(format!("refusal {part} at a second place"));
            }
        }
        names.extend(self.outcomes.never_met());
        names.extend(self.texts.never_met());
        names
    }

    pub fn table(&self) -> String {
        let mut text = row("", OPERATIONS, "all");
        text += &self.answer_row("accepted", 0);
        for number in REFUSALS {
            text += &self.answer_row(&format!("refusal {number}"), number);
        }
        for (part, places) in PARTS.iter().zip(&self.places) {
            text += &format!("refusal {part} at {} places\n", places.len());
        }
        text += &self.outcomes.table();
        text += &self.texts.table();
        for (way, count) in &self.ways {
            text += &format!("{count:>9} records: {way}\n");
        }
        let [boards, models, plain, solutions] = self.demand;
        text += &format!("demand 3: {boards} boards, {models} models, ");
        text += &format!("{plain} plain models, {solutions} solutions\n");
        text
    }

    fn answer_row(&self, name: &str, number: usize) -> String {
        let cells = self.answers.map(|counts| counts[number]);
        row(name, cells, self.total(number))
    }
}

fn row<T: std::fmt::Display>(name: &str, cells: [T; OPERATIONS.len()], last: T) -> String {
    let mut text = format!("{name:<10}");
    for cell in cells.into_iter().chain([last]) {
        text += &format!(" {cell:>10}");
    }
    text + "\n"
}
