//! Lines that cannot be kept together, found by leaving lines out and asking the user's own solver.
//!
//! A line that is left out takes with it all rules that speak of it. Whole machines are left out first, then jobs and numbers,
//! then single rules; each time all at once, then halves, then halves of these, down to one line after another.

mod limit;
mod lines;
mod overfull;
mod search;
mod words;

pub use limit::Limit;
pub use search::{Found, Search};
pub use words::found_words;
