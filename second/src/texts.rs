//! Random clause texts and replies, sound and spoilt, with what has to become of them.

pub mod clause_text;
pub mod noise;
pub mod not_once;
pub mod pieces;
pub mod reply_text;
pub mod spoilt_number;
pub mod spoilt_reply;
pub mod spoilt_text;
pub mod wrong_counts;

/// A text and the offset at which it has to be refused.
pub type Spoilt = (Vec<u8>, usize);

/// The text refused at its end, as one that stops too early is.
fn unfinished(text: Vec<u8>) -> Spoilt {
    let length = text.len();
    (text, length)
}
