//! Two copies of a board's text that were changed apart, joined line by line.
//!
//! What is added on either side is added, what is struck on one side is struck, and what is changed on one side is changed. A
//! declaration that is changed differently on both sides, or struck on one and changed on the other, is for people to decide.

mod common;
mod conflicts;
mod fates;
mod joined;
mod texts;

pub use joined::Joined;
pub use texts::Text;
