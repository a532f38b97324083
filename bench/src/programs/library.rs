//! The proved library, through its wrapper.

use super::{Answer, Desk, Operation, Program, ACCEPTED};
use basmuthar::{Refusal, Sizes};

pub struct Library;

// With lent bytes, as in C: nothing is made ready for a call.
extern "C" {
    fn basmuthar_write_text(
        record: *const u8,
        record_len: usize,
        text: *mut u8,
        text_len: usize,
        answer: *mut Answer,
    );

    fn basmuthar_read_text(
        text: *const u8,
        text_len: usize,
        list: *mut i32,
        list_len: usize,
        answer: *mut Answer,
    );

    fn basmuthar_read_reply(
        variables: u32,
        text: *const u8,
        text_len: usize,
        model: *mut u8,
        model_len: usize,
        answer: *mut Answer,
    );
}

impl Program for Library {
    fn name(&self) -> &'static str {
        "library"
    }

    fn does(&self, _: Operation) -> bool {
        true
    }

    fn run(&self, operation: Operation, desk: &mut Desk) -> Answer {
        let Desk { record, list, model, values, booleans, text, reply } = desk;
        match operation {
            Operation::Size => sized(basmuthar::size(record)),
            Operation::Compile => sized(basmuthar::compile(record, list)),
            Operation::Decode => plain(basmuthar::decode(record, model, values, booleans)),
            Operation::Judge => plain(basmuthar::judge(record, values, booleans)),
            Operation::Image => plain(basmuthar::image(record, values, booleans, model)),
            Operation::WriteText => write_text(record, text),
            Operation::ReadText => read_text(text, list),
            Operation::ReadReply => read_reply(reply, model),
        }
    }
}

fn write_text(record: &[u8], text: &mut [u8]) -> Answer {
    let mut answer = ACCEPTED;
    unsafe {
        basmuthar_write_text(
            record.as_ptr(),
            record.len(),
            text.as_mut_ptr(),
            text.len(),
            &mut answer,
        )
    };
    answer
}

fn read_text(text: &[u8], list: &mut [i32]) -> Answer {
    let mut answer = ACCEPTED;
    unsafe {
        basmuthar_read_text(text.as_ptr(), text.len(), list.as_mut_ptr(), list.len(), &mut answer)
    };
    answer
}

fn read_reply(reply: &[u8], model: &mut [u8]) -> Answer {
    let mut answer = ACCEPTED;
    unsafe {
        basmuthar_read_reply(
            model.len() as u32,
            reply.as_ptr(),
            reply.len(),
            model.as_mut_ptr(),
            model.len(),
            &mut answer,
        )
    };
    answer
}

fn sized(result: Result<Sizes, Refusal>) -> Answer {
    match result {
        Ok(sizes) => [0, sizes.variables as u64, sizes.clauses as u64, sizes.numbers as u64],
        Err(refusal) => [refusal.number, refusal.detail, 0, 0],
    }
}

fn plain(result: Result<(), Refusal>) -> Answer {
    result.map_or_else(|refusal| [refusal.number, refusal.detail, 0, 0], |()| ACCEPTED)
}
