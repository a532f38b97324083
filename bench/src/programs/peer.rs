//! The strong peer.

use super::{Answer, Desk, Operation, Program, ACCEPTED};
use crate::strong::{self, Refused, Sizes};

pub struct Strong;

impl Program for Strong {
    fn name(&self) -> &'static str {
        "strong"
    }

    fn does(&self, operation: Operation) -> bool {
        !matches!(operation, Operation::ReadText | Operation::ReadReply)
    }

    fn run(&self, operation: Operation, desk: &mut Desk) -> Answer {
        let Desk { record, list, model, values, booleans, text, .. } = desk;
        match operation {
            Operation::Size => sized(strong::size(record)),
            Operation::Compile => sized(strong::compile(record, list)),
            Operation::Decode => plain(strong::decode(record, model, values, booleans)),
            Operation::Judge => plain(strong::judge(record, values, booleans)),
            Operation::Image => plain(strong::image(record, values, booleans, model)),
            Operation::WriteText => written(strong::write_text(record, text)),
            Operation::ReadText | Operation::ReadReply => panic!("the strong peer reads no text"),
        }
    }
}

fn sized(result: Result<Sizes, Refused>) -> Answer {
    match result {
        Ok(sizes) => [0, sizes.variables, sizes.clauses, sizes.numbers],
        Err(refused) => [refused.number, refused.detail, 0, 0],
    }
}

fn written(result: Result<usize, Refused>) -> Answer {
    match result {
        Ok(length) => [0, length as u64, 0, 0],
        Err(refused) => [refused.number, refused.detail, 0, 0],
    }
}

fn plain(result: Result<(), Refused>) -> Answer {
    result.map_or_else(|refused| [refused.number, refused.detail, 0, 0], |()| ACCEPTED)
}
