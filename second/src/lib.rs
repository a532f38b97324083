//! The second program: nine operations on board records and texts, written from the documents alone.

pub mod board;
pub mod boards;
pub mod clauses;
pub mod closing;
pub mod counting;
pub mod numbering;
pub mod operations;
pub mod printing;
pub mod reading;
pub mod refusal;
pub mod reply_in;
pub mod scanning;
pub mod text_in;
pub mod text_length;
pub mod text_out;
pub mod texts;
pub mod tuples;

pub use closing::{closing, Closing};
pub use counting::Sizes;
pub use operations::{compile, decode, image, judge, size};
pub use printing::printed;
pub use refusal::Refusal;
pub use reply_in::{read_reply, Reply};
pub use text_in::read_text;
pub use text_out::write_text;
