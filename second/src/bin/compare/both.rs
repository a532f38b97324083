//! One operation through both programs: answers and lists must be the same.

use crate::first::{self, Answer};
use crate::second_side;
use crate::tally::{Operation, Tally};
use second::closing::MOST_QUESTIONS;
use std::fmt;

/// What lent lists hold before a call.
pub const NUMBER_PATTERN: i32 = 0x5A5A_5A5A;
pub const BYTE_PATTERN: u8 = 0xA5;

/// A place where the programs differ, or where a promise is broken.
pub struct Difference {
    record: String,
    operation: Operation,
    what: String,
}

impl fmt::Display for Difference {
    fn fmt(&self, to: &mut fmt::Formatter) -> fmt::Result {
        writeln!(to, "{:?} differs", self.operation)?;
        writeln!(to, "record {}", self.record)?;
        write!(to, "{}", self.what)
    }
}

/// The bytes in hex, two digits each.
pub fn hex(bytes: &[u8]) -> String {
    bytes.iter().map(|byte| format!("{byte:02x}")).collect()
}

pub struct Both<'a> {
    pub record: &'a [u8],
    pub tally: &'a mut Tally,
}

/// An answer and the lists after the call, for one program.
#[derive(Clone, PartialEq, Debug)]
pub struct After {
    pub answer: Answer,
    pub numbers: Vec<i32>,
    pub bytes: Vec<u8>,
}

impl After {
    pub fn before(numbers: usize, bytes: usize) -> After {
        After {
            answer: [0; 4],
            numbers: vec![NUMBER_PATTERN; numbers],
            bytes: vec![BYTE_PATTERN; bytes],
        }
    }

    fn untouched(&self) -> bool {
        self.numbers.iter().all(|place| *place == NUMBER_PATTERN)
            && self.bytes.iter().all(|place| *place == BYTE_PATTERN)
    }

    pub fn accepted(&self) -> bool {
        self.answer[0] == 0
    }
}

pub type Compared<T> = Result<T, Difference>;

impl Both<'_> {
    pub fn new<'a>(record: &'a [u8], tally: &'a mut Tally) -> Both<'a> {
        Both { record, tally }
    }

    pub fn differs(&self, operation: Operation, what: String) -> Difference {
        Difference {
            record: hex(self.record),
            operation,
            what,
        }
    }

    pub fn size(&mut self) -> Compared<Answer> {
        let mut ours = After::before(0, 0);
        let mut theirs = ours.clone();
        theirs.answer = first::size(self.record);
        ours.answer = second_side::size(self.record);
        Ok(self
            .same(Operation::Size, String::new, theirs, ours)?
            .answer)
    }

    /// Compile into a list of this length.
    pub fn compile(&mut self, length: usize) -> Compared<After> {
        let mut ours = After::before(length, 0);
        let mut theirs = ours.clone();
        theirs.answer = first::compile(self.record, &mut theirs.numbers);
        ours.answer = second_side::compile(self.record, &mut ours.numbers);
        let given = || format!("list of {length}");
        self.same(Operation::Compile, given, theirs, ours)
    }

    /// Decode a model into lists of these lengths.
    pub fn decode(&mut self, model: &[u8], values: usize, booleans: usize) -> Compared<After> {
        let mut ours = After::before(values, booleans);
        let mut theirs = ours.clone();
        let numbers = &mut theirs.numbers;
        theirs.answer = first::decode(self.record, model, numbers, &mut theirs.bytes);
        let numbers = &mut ours.numbers;
        ours.answer = second_side::decode(self.record, model, numbers, &mut ours.bytes);
        let given = || format!("model {model:?}, {values} values, {booleans} Booleans");
        self.same(Operation::Decode, given, theirs, ours)
    }

    pub fn judge(&mut self, values: &[i32], booleans: &[u8]) -> Compared<After> {
        let mut ours = After::before(0, 0);
        let mut theirs = ours.clone();
        theirs.answer = first::judge(self.record, values, booleans);
        ours.answer = second_side::judge(self.record, values, booleans);
        let given = || format!("values {values:?}, Booleans {booleans:?}");
        self.same(Operation::Judge, given, theirs, ours)
    }

    /// Image into a model of this length.
    pub fn image(&mut self, values: &[i32], booleans: &[u8], model: usize) -> Compared<After> {
        let mut ours = After::before(0, model);
        let mut theirs = ours.clone();
        theirs.answer = first::image(self.record, values, booleans, &mut theirs.bytes);
        ours.answer = second_side::image(self.record, values, booleans, &mut ours.bytes);
        let given = || format!("values {values:?}, Booleans {booleans:?}, model of {model}");
        self.same(Operation::Image, given, theirs, ours)
    }

    /// Closing into three hours; no list longer than the most questions is accepted.
    pub fn closing(&mut self, variable: usize, replies: &[u8]) -> Compared<After> {
        let mut ours = After::before(3, 0);
        let mut theirs = ours.clone();
        theirs.answer = first::closing(self.record, variable, replies, &mut theirs.numbers);
        ours.answer = second_side::closing(self.record, variable, replies, &mut ours.numbers);
        let given = || format!("variable {variable}, replies {replies:?}");
        let after = self.same(Operation::Closing, given, theirs, ours)?;
        if after.accepted() && replies.len() > MOST_QUESTIONS {
            let what = format!("{}\nmore replies than questions: {after:?}", given());
            return Err(self.differs(Operation::Closing, what));
        }
        self.tally.outcomes.met(after.answer, replies.len());
        Ok(after)
    }

    /// Both programs' outcome, where it is the same and a refusal changed nothing.
    pub fn same(
        &mut self,
        of: Operation,
        given: impl Fn() -> String,
        first: After,
        second: After,
    ) -> Compared<After> {
        if first != second {
            let what = format!("{}\nfirst  {first:?}\nsecond {second:?}", given());
            return Err(self.differs(of, what));
        }
        if !first.accepted() && !first.untouched() {
            let what = format!("{}\na refusal changed a list: {first:?}", given());
            return Err(self.differs(of, what));
        }
        self.tally.answered(of, first.answer[0], first.answer[1]);
        Ok(first)
    }
}
