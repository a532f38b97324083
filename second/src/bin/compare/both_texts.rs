//! One operation on text through both programs: answers and lists must be the same.

use crate::both::{After, Both, Compared};
use crate::tally::Operation;
use crate::{first_texts, second_side};

impl Both<'_> {
    /// The record's text into so many bytes.
    pub fn write_text(&mut self, length: usize) -> Compared<After> {
        let mut ours = After::before(0, length);
        let mut theirs = ours.clone();
        theirs.answer = first_texts::write_text(self.record, &mut theirs.bytes);
        ours.answer = second_side::write_text(self.record, &mut ours.bytes);
        let given = || format!("{length} bytes");
        self.same(Operation::WriteText, given, theirs, ours)
    }

    /// Clause text into a list of this length.
    pub fn read_text(&mut self, text: &[u8], length: usize) -> Compared<After> {
        let mut ours = After::before(length, 0);
        let mut theirs = ours.clone();
        theirs.answer = first_texts::read_text(text, &mut theirs.numbers);
        ours.answer = second_side::read_text(text, &mut ours.numbers);
        let given = || format!("list of {length}, text {}", text.escape_ascii());
        self.same(Operation::ReadText, given, theirs, ours)
    }

    /// A reply for so many variables into a model of this length.
    pub fn read_reply(&mut self, variables: u32, text: &[u8], length: usize) -> Compared<After> {
        let mut ours = After::before(0, length);
        let mut theirs = ours.clone();
        theirs.answer = first_texts::read_reply(variables, text, &mut theirs.bytes);
        ours.answer = second_side::read_reply(variables, text, &mut ours.bytes);
        let given = || {
            let text = text.escape_ascii();
            format!("{variables} variables, model of {length}, reply {text}")
        };
        self.same(Operation::ReadReply, given, theirs, ours)
    }
}
