//! The second program's results in the form of the C interface's answers.

use crate::first::{Answer, FOUND, NONE, UNFINISHED};
use crate::first_texts::{MODEL, NO_MODEL};
use second::{Closing, Refusal, Reply, Sizes};

pub fn size(record: &[u8]) -> Answer {
    with_sizes(second::size(record))
}

pub fn compile(record: &[u8], list: &mut [i32]) -> Answer {
    with_sizes(second::compile(record, list))
}

pub fn decode(record: &[u8], model: &[u8], values: &mut [i32], booleans: &mut [u8]) -> Answer {
    with_zeros(second::decode(record, model, values, booleans))
}

pub fn judge(record: &[u8], values: &[i32], booleans: &[u8]) -> Answer {
    with_zeros(second::judge(record, values, booleans))
}

pub fn image(record: &[u8], values: &[i32], booleans: &[u8], model: &mut [u8]) -> Answer {
    with_zeros(second::image(record, values, booleans, model))
}

pub fn closing(record: &[u8], variable: usize, replies: &[u8], hours: &mut [i32]) -> Answer {
    match second::closing(record, variable, replies) {
        Ok(Closing::Found(value)) => {
            hours.fill(value);
            FOUND
        }
        Ok(Closing::None) => NONE,
        Ok(Closing::Unfinished { low, high, next }) => {
            hours.copy_from_slice(&[low, high, next]);
            UNFINISHED
        }
        Err(refusal) => refused(refusal),
    }
}

pub fn write_text(record: &[u8], text: &mut [u8]) -> Answer {
    match second::write_text(record, text) {
        Ok(length) => [0, length, 0, 0],
        Err(refusal) => refused(refusal),
    }
}

pub fn read_text(text: &[u8], list: &mut [i32]) -> Answer {
    with_sizes(second::read_text(text, list))
}

pub fn read_reply(variables: u32, text: &[u8], model: &mut [u8]) -> Answer {
    match second::read_reply(variables, text, model) {
        Ok(Reply::Model) => MODEL,
        Ok(Reply::None) => NO_MODEL,
        Err(refusal) => refused(refusal),
    }
}

fn with_sizes(result: Result<Sizes, Refusal>) -> Answer {
    match result {
        Ok(sizes) => [0, sizes.variables, sizes.clauses, sizes.numbers],
        Err(refusal) => refused(refusal),
    }
}

fn with_zeros(result: Result<(), Refusal>) -> Answer {
    match result {
        Ok(()) => [0; 4],
        Err(refusal) => refused(refusal),
    }
}

fn refused(refusal: Refusal) -> Answer {
    [refusal.number as u64, refusal.detail, 0, 0]
}
