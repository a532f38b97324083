//! Tests of the wrapper: the nine operations, called as a user of the crate calls them.

mod cases;
mod closing;
mod lent;
mod page;
mod pairing;
mod refusals;
mod replies;
mod texts;
mod trial;

use basmuthar::Refusal;

/// What a refused call answers.
fn refused<T>(number: u64, detail: u64) -> Result<T, Refusal> {
    Err(Refusal { number, detail })
}
