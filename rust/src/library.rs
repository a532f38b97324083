//! The C functions of libbasmuthar.a, as include/basmuthar.h has them.

/// {0, N, M, K} (zeros for Decode, Judge and Image; {0, kind, 0, 0} for Closing and Read reply; {0, length, 0, 0} for Write
/// text), or {refusal number, detail, 0, 0}.
pub type Answer = [u64; 4];

/// Closing's value three times, or its low, its high and its next question.
pub type Hours = [i32; 3];

/// The refusal of a lent list or text that is too short; its detail is the length wanted.
pub const TOO_SHORT: u64 = 10;

extern "C" {
    pub fn basmuthar_size(record: *const u8, record_len: usize, answer: *mut Answer);

    pub fn basmuthar_compile(
        record: *const u8,
        record_len: usize,
        list: *mut i32,
        list_len: usize,
        answer: *mut Answer,
    );

    pub fn basmuthar_decode(
        record: *const u8,
        record_len: usize,
        model: *const u8,
        model_len: usize,
        values: *mut i32,
        values_len: usize,
        booleans: *mut u8,
        booleans_len: usize,
        answer: *mut Answer,
    );

    pub fn basmuthar_judge(
        record: *const u8,
        record_len: usize,
        values: *const i32,
        values_len: usize,
        booleans: *const u8,
        booleans_len: usize,
        answer: *mut Answer,
    );

    pub fn basmuthar_image(
        record: *const u8,
        record_len: usize,
        values: *const i32,
        values_len: usize,
        booleans: *const u8,
        booleans_len: usize,
        model: *mut u8,
        model_len: usize,
        answer: *mut Answer,
    );

    pub fn basmuthar_closing(
        record: *const u8,
        record_len: usize,
        variable: usize,
        replies: *const u8,
        replies_len: usize,
        hours: *mut Hours,
        answer: *mut Answer,
    );

    pub fn basmuthar_write_text(
        record: *const u8,
        record_len: usize,
        text: *mut u8,
        text_len: usize,
        answer: *mut Answer,
    );

    pub fn basmuthar_read_text(
        text: *const u8,
        text_len: usize,
        list: *mut i32,
        list_len: usize,
        answer: *mut Answer,
    );

    pub fn basmuthar_read_reply(
        n: u32,
        text: *const u8,
        text_len: usize,
        model: *mut u8,
        model_len: usize,
        answer: *mut Answer,
    );
}
