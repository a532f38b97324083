//! The second program, written from the documents alone and not for speed.

use super::{Answer, Desk, Operation, Program, ACCEPTED};
use second::{Refusal, Sizes};

pub struct Second;

impl Program for Second {
    fn name(&self) -> &'static str {
        "second"
    }

    fn does(&self, operation: Operation) -> bool {
        !operation.is_of_text()
    }

    /// It keeps every clause apart: more of them would take gigabytes, and minutes.
    fn most_clauses(&self) -> u64 {
        2_000_000
    }

    fn run(&self, operation: Operation, desk: &mut Desk) -> Answer {
        let Desk { record, list, model, values, booleans, .. } = desk;
        match operation {
            Operation::Size => sized(second::size(record)),
            Operation::Compile => sized(second::compile(record, list)),
            Operation::Decode => plain(second::decode(record, model, values, booleans)),
            Operation::Judge => plain(second::judge(record, values, booleans)),
            Operation::Image => plain(second::image(record, values, booleans, model)),
            _ => panic!("{} is not measured of the second program", operation.name()),
        }
    }
}

fn sized(result: Result<Sizes, Refusal>) -> Answer {
    match result {
        Ok(sizes) => [0, sizes.variables, sizes.clauses, sizes.numbers],
        Err(refusal) => refused(refusal),
    }
}

fn plain(result: Result<(), Refusal>) -> Answer {
    result.map_or_else(refused, |()| ACCEPTED)
}

fn refused(refusal: Refusal) -> Answer {
    [u64::from(refusal.number), refusal.detail, 0, 0]
}
