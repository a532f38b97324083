//! Counts of what Closing led to: found, none and unfinished, and least values by true replies.

use crate::first::{Answer, FOUND, NONE, UNFINISHED};
use second::closing::MOST_QUESTIONS;

/// Counts by how many replies were given.
type ByReplies = [u64; MOST_QUESTIONS + 1];

#[derive(Default)]
pub struct Outcomes {
    found: ByReplies,
    none: ByReplies,
    unfinished: ByReplies,
    /// Boards asked with true replies, variables whose least was found, and those without any.
    pub asked: [u64; 3],
    /// The most questions that true replies took.
    pub most_questions: usize,
    /// Each p(x,h) whose models were paired with the solutions of x at most h.
    pub paired: u64,
}

impl Outcomes {
    pub fn met(&mut self, answer: Answer, replies: usize) {
        let counts = match answer {
            FOUND => &mut self.found,
            NONE => &mut self.none,
            UNFINISHED => &mut self.unfinished,
            _ => return,
        };
        counts[replies] += 1;
    }

    /// The outcomes by name, each with its counts.
    fn named(&self) -> [(&'static str, &ByReplies); 3] {
        [
            ("found", &self.found),
            ("none", &self.none),
            ("unfinished", &self.unfinished),
        ]
    }

    /// The outcomes that no call had.
    pub fn never_met(&self) -> Vec<String> {
        let never = self.named().into_iter();
        let never = never.filter(|(_, counts)| counts.iter().sum::<u64>() == 0);
        never.map(|(name, _)| format!("closing {name}")).collect()
    }

    pub fn table(&self) -> String {
        let mut text = String::new();
        for (name, counts) in self.named() {
            let total: u64 = counts.iter().sum();
            text += &format!("closing {name}: {total}, by replies");
            let met = counts.iter().enumerate().filter(|(_, &count)| count > 0);
            for (replies, count) in met {
                text += &format!(" {replies}:{count}");
            }
            text += "\n";
        }
        let [boards, found, none] = self.asked;
        text += &format!("true replies: {boards} boards, {found} least values, {none} none, ");
        text += &format!("at most {} questions\n", self.most_questions);
        text += &format!("one list: {} questions paired\n", self.paired);
        text
    }
}
