//! The first program's operations on text, through its C interface.

use crate::first::{unless_broken, Answer, Lent, UNANSWERED};

/// What the reader of a reply answers where it does not refuse.
pub const MODEL: Answer = [0, 0, 0, 0];
pub const NO_MODEL: Answer = [0, 1, 0, 0];

extern "C" {
    fn basmuthar_write_text(
        record: *const u8,
        record_len: usize,
        text: *mut u8,
        text_len: usize,
        answer: *mut u64,
    );
    fn basmuthar_read_text(
        text: *const u8,
        text_len: usize,
        list: *mut i32,
        list_len: usize,
        answer: *mut u64,
    );
    fn basmuthar_read_reply(
        n: u32,
        text: *const u8,
        text_len: usize,
        model: *mut u8,
        model_len: usize,
        answer: *mut u64,
    );
}

pub fn write_text(record: &[u8], text: &mut [u8]) -> Answer {
    let mut answer = UNANSWERED;
    let mut lent = Lent::new(text, 77);
    unsafe {
        basmuthar_write_text(
            record.as_ptr(),
            record.len(),
            lent.start(),
            text.len(),
            answer.as_mut_ptr(),
        );
    }
    unless_broken(answer, lent.give_back(text))
}

pub fn read_text(text: &[u8], list: &mut [i32]) -> Answer {
    let mut answer = UNANSWERED;
    let mut lent = Lent::new(list, -77);
    unsafe {
        basmuthar_read_text(
            text.as_ptr(),
            text.len(),
            lent.start(),
            list.len(),
            answer.as_mut_ptr(),
        );
    }
    unless_broken(answer, lent.give_back(list))
}

pub fn read_reply(variables: u32, text: &[u8], model: &mut [u8]) -> Answer {
    let mut answer = UNANSWERED;
    let mut lent = Lent::new(model, 77);
    unsafe {
        basmuthar_read_reply(
            variables,
            text.as_ptr(),
            text.len(),
            lent.start(),
            model.len(),
            answer.as_mut_ptr(),
        );
    }
    unless_broken(answer, lent.give_back(model))
}
